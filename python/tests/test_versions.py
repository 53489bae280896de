"""The version that is told is that of the repository, with what the build wrote."""
import contextlib
import importlib.metadata
import io
import tempfile
import unittest
from pathlib import Path
from unittest import mock

import trinorm
from trinorm import versions
from trinorm.__main__ import main
from trinorm.program import REPOSITORY


class Versions(unittest.TestCase):
    def test_is_the_project_s(self) -> None:
        project = (REPOSITORY / "python" / "pyproject.toml").read_text(encoding="utf8")
        self.assertIn(f'\nversion = "{trinorm.__version__}"\n', project)

    def test_what_the_build_wrote(self) -> None:
        with tempfile.TemporaryDirectory() as folder, mock.patch("trinorm.versions.REPOSITORY", Path(folder)):
            self.assertEqual(versions.build(), "")
            out = Path(folder) / "crates" / "trinorm" / "out"
            out.mkdir(parents=True)
            (out / ".version").write_text("commit abc\nkit made-up\n", encoding="utf8")
            with self.assertRaises(SystemExit) as caught, contextlib.redirect_stdout(io.StringIO()) as said:
                main(["--version"])
        self.assertEqual((caught.exception.code, said.getvalue()), (0, f"trinorm {trinorm.__version__}\ncommit abc\nkit made-up\n"))

    def test_without_metadata(self) -> None:
        """The tarball and the Debian package: the version is that of the file beside the program."""
        with tempfile.TemporaryDirectory() as folder:
            package = Path(folder, "share", "trinorm", "python", "trinorm", "versions.py")
            installed = Path(folder, "libexec", "trinorm", "version")
            with mock.patch("trinorm.versions.__file__", str(package)), mock.patch("trinorm.versions.REPOSITORY", Path(folder)), \
                    mock.patch("importlib.metadata.version", side_effect=importlib.metadata.PackageNotFoundError):
                self.assertEqual(versions.version(), "unknown")
                installed.parent.mkdir(parents=True)
                installed.write_text("proved elsewhere\nversion 1.2.3\ncommit abc\n", encoding="utf8")
                self.assertEqual(versions.version(), "1.2.3")


if __name__ == "__main__":
    unittest.main()
