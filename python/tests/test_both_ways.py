"""The tests of commands once more: by a process for each call, and by the library in this process."""
import os
import unittest
from typing import Any, ClassVar, Dict, List, Optional, Tuple, Type
from unittest import mock

import trinorm
from trinorm import library
from trinorm.program import find_library

from . import test_commands, test_library, test_questions, test_regina

CHOICES = ("TRINORM", "TRINORM_LIBRARY")
# the name of a way, what chooses it, and the library that is found
Way = Tuple[str, Dict[str, str], Optional[library.Library]]


def environment(**chosen: str) -> Dict[str, str]:
    return {**{name: value for name, value in os.environ.items() if name not in CHOICES}, **chosen}


def within(case: Type[unittest.TestCase], way: str, chosen: Dict[str, str], wanted: Optional[library.Library]) -> Type[unittest.TestCase]:
    """The tests of a class, where the environment chooses the way."""
    class Again(case):  # type: ignore[valid-type, misc]
        around: ClassVar[Any]

        @classmethod
        def setUpClass(cls) -> None:
            cls.around = mock.patch.dict(os.environ, environment(**chosen), clear=True)
            cls.around.start()
            super().setUpClass()

        @classmethod
        def tearDownClass(cls) -> None:
            super().tearDownClass()
            cls.around.stop()

        def setUp(self) -> None:
            super().setUp()
            self.assertIs(find_library(), wanted)

    Again.__name__ = Again.__qualname__ = f"{case.__name__}By{way}"
    return Again


def load_tests(loader: unittest.TestLoader, tests: object, _pattern: object) -> unittest.TestSuite:
    path, found = test_library.named(), unittest.TestSuite()
    ways: List[Way] = [("Process", {"TRINORM": trinorm.find()}, None)]
    if path:
        ways.append(("Library", {"TRINORM_LIBRARY": path}, library.at(os.path.realpath(path))))
    for module in (test_commands, test_questions, test_regina):
        for case in vars(module).values():
            if isinstance(case, type) and issubclass(case, unittest.TestCase) and case.__module__ == module.__name__:
                found.addTests(loader.loadTestsFromTestCase(within(case, *way)) for way in ways)
    return found
