"""What is built and when, without proving: freshness, one use at a time, and what is said where the kit is missing."""
import io
import os
import sys
import threading
import time
from contextlib import redirect_stderr
from unittest import mock

from zhiblator import TOP, build
from zhiblator.troubles import Broken

from . import Case, started


class Freshness(Case):
    def setUp(self):
        super().setUp()
        os.makedirs(os.path.join(self.folder, 'crates', 'one', 'src'))
        self.source = self.file('', 'crates/one/src/lib.rt')
        self.file('one:\n# a remark\ntwo: one\n', 'crates.txt')
        os.makedirs(os.path.join(self.folder, 'crates', 'two'))
        for name, path in (('TOP', ''), ('CRATES', 'crates'), ('TARGET', 'target')):
            change = mock.patch.object(build, name, os.path.join(self.folder, path))
            change.start()
            self.addCleanup(change.stop)
        self.built = os.path.join(self.folder, 'built')
        self.made = 0

    def make(self):
        self.made += 1
        self.file('', 'built')

    def use(self):
        self.assertEqual(build.made(self.built, 'two', self.make), self.built)

    def test_built_once_and_again_after_a_change(self):
        self.use()
        self.use()
        self.assertEqual(self.made, 1)
        later = time.time() + 5
        os.utime(self.source, (later, later))
        self.use()
        self.assertEqual(self.made, 2)

    def test_a_source_that_changes_while_it_is_built_counts_as_newer(self):
        def slow():
            self.make()
            changed = time.time() + 0.01
            os.utime(self.source, (changed, changed))
        build.made(self.built, 'two', slow)
        self.assertFalse(build.is_fresh(self.built, ['one']))

    def test_two_first_uses_build_once(self):
        entered = threading.Event()

        def slow():
            entered.set()
            time.sleep(0.3)
            self.make()
        first = threading.Thread(target=build.made, args=(self.built, 'two', slow))
        first.start()
        entered.wait()
        said = io.StringIO()
        with redirect_stderr(said):
            self.use()
        first.join()
        self.assertEqual((self.made, said.getvalue()), (1, 'waiting for another use that is building ..\n'))

    def test_a_failure_leaves_the_lock_free(self):
        def fails():
            raise Broken('no')
        with self.assertRaises(Broken):
            build.made(self.built, 'two', fails)
        self.use()

    def test_a_folder_that_may_not_be_written(self):
        self.file('', 'target')
        with self.assertRaisesRegex(Broken, 'cannot build under target/'):
            build.made(self.built, 'two', self.make)


class Crates(Case):
    def test_only_what_is_needed(self):
        needed = build.needed('panel_c')
        self.assertEqual((needed[0], needed[-1]), ('model', 'panel_c'))
        self.assertFalse({'frame_record', 'trial', 'lister'} & set(needed))
        self.assertIn('frame_calls', build.needed('replay'))

    def test_progress_by_crate(self):
        lines = ['fn model::f: proved\n', 'crate model: modules loaded=4 checked=7\n', 'logic=proved functions=3\n',
                 'crate table: modules loaded=4 checked=7\n', 'logic=not-proved\n',
                 'crate panel: modules loaded=4 checked=7\n', 'logic=proved functions=5\n']
        out, said = io.StringIO(), io.StringIO()
        with redirect_stderr(said):
            build.report(lines, out, ['model', 'table', 'panel'])
        self.assertEqual(out.getvalue(), ''.join(lines))
        self.assertEqual(said.getvalue(), 'proved 1 of 3: model\nproved 2 of 3: panel\n')


class Kit(Case):
    def tool(self, name, script):
        path = self.file('#!/bin/sh\n' + script, name)
        os.chmod(path, 0o755)

    def with_path(self, call):
        said = io.StringIO()
        with mock.patch.dict(os.environ, PATH=self.folder), redirect_stderr(said):
            return call(), said.getvalue()

    def test_no_kit(self):
        with self.assertRaisesRegex(Broken, 'rt, .* is not on the path'):
            self.with_path(build.kit_command)
        python = os.path.dirname(sys.executable)
        done = started('version', env={'PATH': python, 'HOME': self.folder})
        self.assertIn('installed: no kit, rt is not on the path', done.out)

    def test_another_kit_is_told_and_used(self):
        self.tool('rt', 'echo another kit')
        rt, said = self.with_path(build.kit_command)
        self.assertEqual(rt, os.path.join(self.folder, 'rt'))
        self.assertRegex(said, r'\Anote: this was proved with .*; the kit here is another kit\n\Z')

    def test_a_proof_that_fails(self):
        self.tool('rt', 'case $1 in version) echo x ;; *) echo "rt: table NOT PROVED"; exit 1 ;; esac')
        with mock.patch.object(build, 'TARGET', self.folder):
            with self.assertRaisesRegex(Broken, 'rt lib of crate panel_c ended with 1'):
                self.with_path(lambda: build.prove('lib', 'panel_c'))

    def test_no_compiler_or_one_that_fails(self):
        archive, path = self.file('no archive', 'a.a'), os.path.join(self.folder, 'a.so')
        with self.assertRaisesRegex(Broken, 'cc, a C compiler, is not on the path'):
            self.with_path(lambda: build.link(archive, path))
        with self.assertRaisesRegex(Broken, 'cc could not link'):
            build.link(archive, path)
        self.assertFalse(os.path.exists(path))

    def test_the_top_is_the_repositorys(self):
        self.assertTrue(os.path.exists(os.path.join(TOP, 'crates.txt')))
