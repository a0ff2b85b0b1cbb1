"""The declarations are those of the header."""

import ctypes
import os
import re
import unittest

from common import HERE

from logpurple import Fault, Section, _calls, _errors

HEADER = os.path.join(HERE, "..", "..", "..", "include", "sst.h")
# The types of the header in ctypes.
PLAIN = {"size_t": ctypes.c_size_t, "uint64_t": ctypes.c_uint64, "uint32_t": ctypes.c_uint32,
         "bool": ctypes.c_bool, "void": None}
STRUCTS = {"sst_handle": _calls.Handle, "sst_entry": _calls.Entry, "sst_lent": _calls.Lent,
           "sst_facts": _calls.Facts, "sst_verified": _calls.Verified,
           "sst_options": _calls.Options, "sst_file": _calls.File,
           "sst_progress": _calls.Progress, "sst_memory": _calls.Memory}
POINTERS = (ctypes.c_char_p, ctypes.c_void_p)


def is_pointer(kind):
    return kind in POINTERS or hasattr(kind, "contents")


class Calls(unittest.TestCase):
    def setUp(self):
        with open(HEADER, encoding="utf-8") as file:
            self.header = re.sub(r"/\*.*?\*/", "", file.read(), flags=re.S)

    def test_structs(self):
        for name, kind in STRUCTS.items():
            body = re.search(r"typedef struct %s \{(.*?)\} %s;" % (name, name), self.header, re.S)
            fields = re.findall(r"(const uint8_t \*|uint64_t |uint32_t )(\w+)(?:\[(\d)\])?;",
                                body.group(1))
            self.assertEqual([field for _, field, _ in fields],
                             [field[0] for field in kind._fields_])
            size = sum((4 if word == "uint32_t " else 8) * int(count or 1)
                       for word, _, count in fields)
            self.assertEqual(ctypes.sizeof(kind), size)

    def test_calls(self):
        declared = re.findall(r"^(uint32_t|uint64_t|void) (sst_\w+)\((.*?)\);", self.header,
                              re.S | re.M)
        self.assertGreater(len(declared), 25)
        for answer, name, parts in declared:
            call = getattr(_calls, name[4:], None)
            if call is None:  # the package does not use it
                self.assertIn(name, ("sst_found_copy", "sst_answers_copy", "sst_answers_lend"))
                continue
            self.assertEqual(call.restype, PLAIN[answer], name)
            parts = [] if parts == "void" else [part.split() for part in parts.split(",")]
            self.assertEqual(len(call.argtypes), len(parts), name)
            for words, kind in zip(parts, call.argtypes):
                word = words[1] if words[0] == "const" else words[0]
                if not words[-1].startswith("*"):
                    self.assertEqual(kind, PLAIN[word], name)
                elif word in STRUCTS and kind != ctypes.c_void_p:
                    self.assertEqual(kind._type_, STRUCTS[word], name)
                else:
                    self.assertTrue(is_pointer(kind), name)

    # The numbers of the header's enumeration with a name, without the prefix of the names.
    def numbers(self, name, begin="SST_"):
        body = next(body for body in re.findall(r"enum \{(.*?)\};", self.header, re.S)
                    if re.search(r"\b%s =" % name, body))
        return {name[len(begin):]: int(number)
                for name, number in re.findall(r"(\w+) = (\d+)", body)}

    def test_names(self):
        self.assertEqual(self.numbers("SST_SECTION_DATA", "SST_SECTION_"),
                         {section.name: section.value for section in Section})
        self.assertEqual(self.numbers("SST_FAULT_HOLLOW", "SST_FAULT_"),
                         {fault.name: fault.value for fault in Fault})
        codes = {**self.numbers("SST_TRUNCATED"), **self.numbers("SST_CLOSED")}
        self.assertEqual(len(codes), len(_errors.BY_CODE))
        for name, number in codes.items():
            kind = _errors.BY_CODE[number]
            self.assertEqual(kind.__name__.replace("Already", "").lower(),
                             name.replace("_", "").lower())


if __name__ == "__main__":
    unittest.main()
