"""Tests of tools/commits.py: messages that break the rules, and repositories without history."""
from __future__ import annotations

import subprocess
import sys
import tempfile
import unittest
from pathlib import Path

TOOLS = Path(__file__).resolve().parents[2] / "tools"
sys.path.insert(0, str(TOOLS))

import commits  # noqa: E402


class Messages(unittest.TestCase):
    """What is said of messages."""

    def test_a_message_with_a_reason_is_right(self) -> None:
        self.assertEqual(commits.faults_of("Mend the sum\n\nIt wrapped at 2^64.\n# a comment\n"), [])

    def test_each_fault_is_named(self) -> None:
        for message, fault in (("", "the message is empty"), ("# only a comment\n", "the message is empty"),
                               (f"{'x' * 73}\n\nwhy\n", "the subject has 73 characters; at most 72 are allowed"),
                               ("Mend it.\n\nwhy\n", "the subject ends with a full stop"),
                               ("Mend it\n", "there is no body that says why"), ("Mend it\n\n\n", "there is no body that says why"),
                               ("Mend it\nwhy\n", "the line after the subject is not empty")):
            with self.subTest(message):
                self.assertEqual(commits.faults_of(message), [fault])

    def test_a_merge_needs_no_reason(self) -> None:
        self.assertEqual(commits.faults_of("Merge branch 'lists'\n"), [])


class Histories(unittest.TestCase):
    """Which commits are read."""

    def test_commits_after_one_are_read_with_their_messages(self) -> None:
        with tempfile.TemporaryDirectory() as folder:
            def git(*words: str) -> str:
                return subprocess.run(["git", "-C", folder, "-c", "user.name=a", "-c", "user.email=a@b", *words], check=True,
                                      stdout=subprocess.PIPE, text=True).stdout.strip()
            git("init", "-q")
            git("commit", "-q", "--allow-empty", "-m", "First")
            first = git("rev-parse", "HEAD")
            git("commit", "-q", "--allow-empty", "-m", "Second\n\nIt has a reason.")
            git("commit", "-q", "--allow-empty", "-m", "Third")
            self.assertEqual([message for _, message in commits.commits_since(Path(folder), first)],
                             ["Third", "Second\n\nIt has a reason."])
            self.assertEqual(list(commits.commits_since(Path(folder), "0" * 40)), [])

    def test_a_folder_without_history_has_none(self) -> None:
        with tempfile.TemporaryDirectory() as folder:
            self.assertEqual(list(commits.commits_since(Path(folder), commits.FIRST)), [])


if __name__ == "__main__":
    unittest.main()
