"""Gmail's names for its own labels: none stands for two things, so it does not matter which of two languages is found
that have the same name."""
import unittest

from mbox2maildir_admin.flags.gmail import LANGUAGES, language_of, own_names


class Names(unittest.TestCase):
    """The names of all languages."""

    def test_shared(self) -> None:
        """A name that several have stands for the same in each."""
        for name in {name for names in LANGUAGES.values() for name in names}:
            with self.subTest(name):
                self.assertEqual(len({names[name] for names in LANGUAGES.values() if name in names}), 1)

    def test_alone(self) -> None:
        """Each is found by itself, and no other name beside it counts that only others have."""
        for names in LANGUAGES.values():
            for name in names:
                with self.subTest(name):
                    self.assertEqual(own_names([language_of([[name]])])[name], names[name])
        self.assertEqual(language_of([["Gesendet"], ["Enviados"]]), "Inbox")
