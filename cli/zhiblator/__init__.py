"""The command line of Zhiblator: words into numbers, answers into words.

It decides nothing itself: tables and plans are judged by the proved library, logs by the proved program `replay`.
"""
import os

TOP = os.path.dirname(os.path.dirname(os.path.dirname(os.path.realpath(__file__))))


def first_line(name):
    """The one line of a file at the repository's top, as VERSION."""
    with open(os.path.join(TOP, name), encoding='utf-8') as file:
        return file.readline().strip()
