"""How a kernel reads texts. Each answer was given by a running Linux 6.12 with four CPUs."""
import errno
import unittest

from resctrl_sim.kernel_texts import Unread, cpu_list_text, cpus_text, mode_text, schemata_text, tasks_of, threshold_text
from resctrl_sim.kernel_words import are_words_of, kernel_words

CPUS = 4


class Texts(unittest.TestCase):
    def refuses(self, number, words, read, *given):
        with self.assertRaises(Unread) as fault:
            read(*given)
        self.assertEqual((errno.errorcode[fault.exception.number], fault.exception.words), (errno.errorcode[number], words))

    def test_blanks_in_schemata(self):
        for text in ("L3:0=f; 1=f\n", "L3: 0=f\n", "L3:0 =f\n", "L3:0=f; \n", "L3:x=1\n"):
            self.refuses(errno.EINVAL, "Missing '=' or non-numeric domain\n", schemata_text, text)
        self.assertEqual(schemata_text("L3:0= f ;1=f\n"), "L3:0=f;1=f")
        self.assertEqual(schemata_text("L3:0=f;\n"), "L3:0=f;")

    def test_signs_in_schemata(self):
        self.assertEqual(schemata_text("L3:0=+3\n"), "L3:0=3")
        self.assertEqual(schemata_text("L3:+1=3\n"), "L3:1=3")

    def test_what_is_left_to_the_simulator(self):
        for text in ("L3", "", "L3:", "MB:0=10", "L3:0=3\nMB:0=10"):
            self.assertEqual(schemata_text(text + "\n"), text)

    def test_modes(self):
        self.assertEqual(mode_text("exclusive\n"), "exclusive")
        for text in ("exclusive \n", " exclusive\n"):
            self.refuses(errno.EINVAL, "Unknown or unsupported mode\n", mode_text, text)

    def test_cpus(self):
        for text, read in (("3,\n", "3"), (",1\n", "1"), ("f\n", "f")):
            self.assertEqual(cpus_text(text, CPUS), read)
        self.refuses(errno.EINVAL, "Bad CPU list/mask\n", cpus_text, "0x1\n", CPUS)
        for text in ("0,1\n", "00000000,00000001\n", "10\n"):
            self.refuses(errno.EOVERFLOW, "Bad CPU list/mask\n", cpus_text, text, CPUS)

    def test_lists_of_cpus(self):
        for text, read in (("all\n", "0,1,2,3"), ("0,\n", "0"), ("0-3:1/2\n", "0,2"), ("1 3\n", "1,3"), ("N\n", "3")):
            self.assertEqual(cpu_list_text(text, CPUS), read)
        for text in ("4\n", "0-9\n"):
            self.refuses(errno.ERANGE, "Bad CPU list/mask\n", cpu_list_text, text, CPUS)

    def test_tasks(self):
        for text, ids in (("010\n", (8,)), ("0x10\n", (16,)), ("+7\n", (7,)), ("0\n", (0,)), ("\n", ()), ("7, 8\n", (7, 8)), ("7,\n", (7,))):
            self.assertEqual((tasks_of(text).ids, tasks_of(text).fault), (ids, None))
        for text, ids, words in (
            ("7, \n", (7,), "Task list parsing error pid \n"),
            (" \n", (), "Task list parsing error pid \n"),
            ("7 8\n", (), "Task list parsing error pid 7 8\n"),
            ("2147483648\n", (), "Task list parsing error pid 2147483648\n"),
            ("-1\n", (), "Invalid pid -1\n"),
        ):
            self.assertEqual((tasks_of(text).ids, tasks_of(text).fault.words), (ids, words))

    def test_thresholds(self):
        for text, read in (("0x80\n", "128"), ("0100\n", "64"), ("100\n", "64")):
            self.assertEqual(threshold_text(text), read)
        self.refuses(errno.EINVAL, "", threshold_text, "128 \n")
        self.refuses(errno.ERANGE, "", threshold_text, "99999999999\n")


class Words(unittest.TestCase):
    def test_reasons(self):
        self.assertEqual(kernel_words("mask 5 has non-consecutive 1-bits"), "The mask 5 has non-consecutive 1-bits")
        self.assertEqual(kernel_words("no task 99"), "No task 99\nError while processing task 99")
        self.assertEqual(kernel_words("group is pseudo-locked", "mode"), "Cannot change pseudo-locked group")
        self.assertEqual(kernel_words("unknown domain"), "")
        self.assertIsNone(kernel_words("a region has one domain"))

    def test_told(self):
        self.assertTrue(are_words_of("unknown resource name", "Unknown or unsupported resource name 'MB'"))
        self.assertTrue(are_words_of("file exists", ""))
        self.assertFalse(are_words_of("duplicate domain 1", "Duplicate domain 0"))
