"""Calls every function of the package. CEDAR_SCHEMA_LIBRARY names the shared object."""
import concurrent.futures
import os
import time
import unittest

import cedar_schema
from cedar_schema import DeepError, InputError, SchemaError, UsageError


class Calls(unittest.TestCase):
    def test_texts(self):
        self.assertEqual(cedar_schema.recover("entity B; entity A in B;"), "entity A in [B];\n\nentity B;\n")
        self.assertEqual(cedar_schema.recover(""), "")
        self.assertEqual(cedar_schema.check(b"entity A; action a;"), (1, 1))
        self.assertEqual(cedar_schema.format("entity A;//a\nentity B;"), "entity A; //a\nentity B;\n")

    def test_json(self):
        text = cedar_schema.to_json("entity A;")
        self.assertEqual(cedar_schema.from_json(text), "entity A;\n")
        self.assertEqual(cedar_schema.from_json(text, deprecated=True), "entity A;\n")

    def test_refused(self):
        with self.assertRaises(SchemaError) as caught:
            cedar_schema.recover("entity User = { name String };")
        error = caught.exception
        self.assertEqual(error.message, "unexpected token `String`")
        self.assertEqual(error.place, (21, 27))
        self.assertEqual(error.faults[0].label, "expected `:` or `?`")
        self.assertIsNone(error.help)

    def test_help(self):
        with self.assertRaises(SchemaError) as caught:
            cedar_schema.recover("action view appliesTo { principal: User };")
        error = caught.exception
        self.assertEqual(error.message, "missing `resource` declaration for `view`")
        self.assertEqual(error.place, (7, 11))
        self.assertTrue(error.help.startswith("Every action must define both"))

    def test_several_faults(self):
        with self.assertRaises(SchemaError) as caught:
            cedar_schema.recover("entity A in [B]; entity C in [D];")
        self.assertEqual(str(caught.exception).count("error: "), len(caught.exception.faults))

    def test_inputs(self):
        with self.assertRaises(InputError):
            cedar_schema.recover(b"\xff")
        with self.assertRaises(InputError):
            cedar_schema.recover("a" * 16_777_217)
        with self.assertRaises(DeepError):
            cedar_schema.recover("type T = " + "Set<" * 300 + "Long" + ">" * 300 + ";")
        with self.assertRaises(SchemaError):
            cedar_schema.recover("a\0b")
        self.assertEqual(cedar_schema.recover("//" + "a" * 16_000_000), "")

    def test_run(self):
        self.assertEqual(cedar_schema.run(["check"], "entity A;"), (0, b"1 entity types, 0 actions\n", b""))
        self.assertEqual(cedar_schema.run([]).status, 2)
        self.assertEqual(cedar_schema.run([b"\xff"]).status, 2)
        self.assertEqual(cedar_schema.run(["recover-with", "decimal"], "type T = decimal;")[0], 0)

    def test_complete(self):
        text = "entity User; entity A in U;"
        self.assertEqual(cedar_schema.complete(text, 26).names, ["User"])
        self.assertIn("identifier", cedar_schema.complete(text, 26).kinds)
        with self.assertRaises(SchemaError) as caught:
            cedar_schema.complete("entity = A", 10)
        self.assertEqual(caught.exception.message, "unexpected token `=`")
        with self.assertRaises(SchemaError):
            cedar_schema.complete(text, 99)

    def test_report(self):
        self.assertEqual(cedar_schema.report("entity A;"), [])
        found = cedar_schema.report("entity \u00e9;\n/* \U0001f600 */")
        self.assertEqual(found[0].severity, "error")
        self.assertEqual(found[0].places[0].start, cedar_schema.Position(7, 1, 8, 8))
        with self.assertRaises(InputError):
            cedar_schema.report(b"\xff")

    def test_same(self):
        self.assertTrue(cedar_schema.same("entity A, B;", "// b\nentity B; entity A;"))
        self.assertFalse(cedar_schema.same("entity A;", "entity A tags Long;"))
        with self.assertRaises(SchemaError) as caught:
            cedar_schema.same("entity A;", "entity B in [C];")
        self.assertIn("C", caught.exception.message)

    def test_include(self):
        self.assertIsNone(cedar_schema.include("entity A;", "entity A, B;"))
        self.assertEqual(cedar_schema.include("entity A, B;", "entity B;"), 'entity A::""')
        with self.assertRaises(SchemaError):
            cedar_schema.include("entity A;", "entity B in [C];")

    def test_answers(self):
        count = 0
        with open(os.path.join(os.path.dirname(__file__), "../../answers"), "rb") as file:
            while True:
                head = file.readline().split()
                if not head:
                    break
                word, (length, status, out, err) = head[0].decode(), map(int, head[1:])
                text = file.read(length)
                wanted = (status, file.read(out), file.read(err))
                file.read(1)
                self.assertEqual(self.answer(word, text), wanted, (word, text))
                count += 1
        self.assertEqual(count, 1000)

    def answer(self, word, text):
        if word != "layout":
            return cedar_schema.run([word], text)
        try:
            return 0, cedar_schema.format(text).encode(), b""
        except SchemaError as error:
            return 1, b"", str(error).encode() + b"\n"
        except InputError as error:
            return 5, b"", str(error).encode() + b"\n"

    def test_threads(self):
        texts = [f"entity E{number};" for number in range(2000)]
        with concurrent.futures.ThreadPoolExecutor(8) as pool:
            answers = list(pool.map(cedar_schema.recover, texts))
        self.assertEqual(answers, [text + "\n" for text in texts])

    def test_errors_are_of_python(self):
        self.assertTrue(issubclass(UsageError, ValueError))
        self.assertEqual(cedar_schema.version(), (0, 1, 0))

    def test_time(self):
        text = "".join(f"entity User{number} in [Group] {{ name: String }};\n" for number in range(45)) + "entity Group;\n"
        began = time.perf_counter()
        for _ in range(500):
            cedar_schema.recover(text)
        print(f"recover of {len(text)} bytes: {(time.perf_counter() - began) * 2000:.0f} microseconds a call")


if __name__ == "__main__":
    unittest.main()
