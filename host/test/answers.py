"""What each command answers, in text and in JSON, with its exit status."""
import itertools
import json
import os
import re
import stat
import subprocess

from tools import CHAIN, begin, check, file_text, folder, write_file

WIDE = "2014-03-09T09:00:00"


def usage(program, store):
    """Every wrong use is told, and changes nothing."""
    wrong = [[], [store], [store, "frob"], [store, "open"], [store, "open", "ST"], [store, "open", "ST", "V1", "V2"], [store, "import"],
             [store, "withdraw"], [store, "withdraw", "A", "B"], [store, "snapshot", "A"], [store, "snapshot", "A", "B", "C", "D"], [store, "files", "x"],
             [store, "files", "--over"], [store, "import", "x", "--tsv"], [store, "status", "--frob"], [store, "status", "--wait"],
             [store, "status", "--wait", "x"], [store, "status", "--wait", "-1"], [store, "import", "-", "-"]]
    for words in wrong:
        program.expect(2, *words)
    for words in (["--help"], ["--version"], [store, "open", "--help"]):
        check(program.expect(0, *words).out, f"{words}: nothing printed")
    return len(wrong) + 3


def objects(program, path):
    """JSON says the same as the text."""
    store = begin(program, path)
    visits = [CHAIN / f"visit-{i}.xml" for i in (1, 2, 3, 4)]
    answers = program.json(store, "import", *visits)
    check([answer["count"] for answer in answers] == [12, 5, 2, 0], f"counts: {answers}")
    place = {"kind": "tag", "line": 8, "column": 9, "text": '<FormData FormOID="VS">'}
    refused = {"command": "import", "file": str(visits[3]), "accepted": False, "refusal": 12, "words": "not live", "count": 0, "place": place}
    check(answers[3] == refused, f"{answers[3]}")
    check(program.json(store, "withdraw", "VISIT-2")[0]["refusal"] == 15, "withdraw of another")
    check(program.json(store, "withdraw", "VISIT-3")[0]["count"] == 2, "withdraw")
    files = program.json(store, "files")[0]["files"]
    check([list(file.values()) for file in files] == [["VISIT-1", "2014-03-01T09:00:00", 12, 177], ["VISIT-2", "2014-03-08T09:00:00", 5, 109]], f"{files}")
    status = program.json(store, "status")[0]
    used = {name: status[name] for name in ("files", "changes", "bytes", "live")}
    most = {"files": (2, 64), "changes": (17, 2048), "bytes": (286, 49152), "live": (15, 512)}
    check(used == {name: {"used": use, "most": limit} for name, (use, limit) in most.items()}, f"{status}")
    check(program.json(store, "verify")[0]["sound"] is True, "verify")
    check(program.json(store, "open", "ST", "V1")[0].get("status") == 1, "open of a store that is there")
    check(program.json(path / "none", "status")[0]["status"] == 3, "a store that is not there")
    snapshot = program.json(store, "snapshot", "S", WIDE)[0]
    check(snapshot["snapshot"] == program.run(store, "snapshot", "S", WIDE).out and snapshot["count"] == len(snapshot["snapshot"]), "snapshot")
    check(program.json(store, "snapshot", "a b", WIDE)[0]["refusal"] == 7, "snapshot under no name")
    return 14


def tables(program, path):
    """The three forms of the table say the same, and null is not a text."""
    store = path / "tables"
    program.expect(0, store, "open", "ST", "V1")
    items = "".join(f'<ItemData ItemOID="I{i}" {value}/>' for i, value in enumerate(('Value="null"', 'IsNull="Yes"', 'Value=" a  b "', "Value='&lt;&amp;&quot;'")))
    text = file_text("F").replace('TransactionType="Insert"/>', 'TransactionType="Insert"><StudyEventData StudyEventOID="E" '
                                  f'StudyEventRepeatKey="1"><FormData FormOID="V"><ItemGroupData ItemGroupOID="G">{items}</ItemGroupData></FormData></StudyEventData></SubjectData>')
    answer = program.expect(0, store, "import", "-", given=text.encode())
    check(answer.out == "-: accepted 8\n", f"{answer}")
    values = [entity.get("Value", "") for entity in program.json(store, "table")[0]["entities"]]
    check(values == ["", "", "", "", "null", None, " a  b ", '<&"'], f"{values}")
    rows = [line.split("\t") for line in program.run(store, "table", "--tsv").out.splitlines()]
    check(all(len(row) == 10 for row in rows) and [row[9] for row in rows[1:]] == [value or "" for value in values], f"{rows}")
    aligned = program.run(store, "table").out.splitlines()
    shown = [re.split(r" I\d +", line)[1] for line in aligned[5:]]
    check(shown == ['"null"', "null", '" a  b "', '"<&""'], f"{aligned}")
    check(program.run(store, "files", "--tsv").out == "FileOID\tDate\tChanges\tBytes\nF\t2014-03-01T09:00:00\t8\t102\n", "files --tsv")
    return 5


def snapshots(program, path):
    """To a file: whole, with the mask's mode, over another only if told so, never over the store."""
    store, out = begin(program, path, "snapshots"), path / "out.xml"
    program.expect(0, store, "import", write_file(path / "f", "F"))
    text = program.expect(0, store, "snapshot", "S", WIDE).out
    program.expect(0, store, "snapshot", "S", WIDE, out, umask=0o027)
    check(out.read_text() == text and stat.S_IMODE(out.stat().st_mode) == 0o640, "a snapshot in a file")
    program.expect(1, store, "snapshot", "S2", WIDE, out)
    check(out.read_text() == text, "a file that is there is kept")
    program.expect(0, store, "snapshot", "S2", WIDE, out, "--over")
    check(out.read_text() == text.replace('"S"', '"S2"') and stat.S_IMODE(out.stat().st_mode) == 0o640, "--over")
    before = store.read_bytes()
    for words in ([store], [store, "--over"]):
        program.expect(1, store, "snapshot", "S", WIDE, *words)
    check(store.read_bytes() == before, "the store is not written over")
    program.expect(1, store, "snapshot", "S", "2014-02-29T09:00:00")
    for target in ("/dev/null", path, path / "none/out"):
        program.expect(3, store, "snapshot", "S", WIDE, target, "--over")
    other = begin(program, path, "other")
    program.expect(0, other, "import", out)
    check(program.run(other, "table").out == program.run(store, "table").out, "a snapshot restores")
    return 13


def outputs(program, path):
    """Where the answer cannot be printed, the status says so, and what was done stays done."""
    store = begin(program, path, "outputs")
    with open("/dev/full", "wb") as full:
        program.expect(3, store, "import", write_file(path / "f", "F"), stdout=full)
    check(program.standing(store) == ["F"], "kept though not printed")
    reading, writing = os.pipe()
    os.close(reading)
    program.expect(3, store, "table", stdout=writing)
    os.close(writing)
    closed = program.start(store, "files", stdout=subprocess.PIPE, preexec_fn=lambda: os.close(1))
    check(closed.wait() == 3, "standard output closed")
    closed.communicate()
    return 3


def with_items(good, items):
    """The file with items in it, from line 6 on."""
    above = '><StudyEventData StudyEventOID="E"><FormData FormOID="V"><ItemGroupData ItemGroupOID="G">\n'
    return good.replace('"Insert"/>', f'"Insert"{above}{items}\n</ItemGroupData></FormData></StudyEventData></SubjectData>')


def typed(program, path):
    """Typed values show as any value, a snapshot of them is untyped, and it restores."""
    store, other = begin(program, path, "typed"), begin(program, path, "typed-other")
    values = {"A": "a &amp; b", "B": "<![CDATA[<c> ]] & \"]]>", "C": "", "D": "<![CDATA[]]>", "E": " "}
    items = "".join(f'<ItemDataString ItemOID="{oid}">{body}</ItemDataString>\n' for oid, body in values.items())
    items += ('<ItemDataInteger ItemOID="F">-007</ItemDataInteger><ItemDataFloat ItemOID="G">36.60</ItemDataFloat><ItemDataDate ItemOID="H">2012-02-29</ItemDataDate>'
              '<ItemDataDatetime ItemOID="I">2014-03-01T08:45:00</ItemDataDatetime><ItemDataDate ItemOID="J"/>')
    answer = program.expect(0, store, "import", "-", given=with_items(file_text("F"), items).encode())
    check(answer.out == "-: accepted 14\n", f"{answer}")
    shown = [entity["Value"] for entity in program.json(store, "table")[0]["entities"] if entity["Depth"] == 5]
    check(shown == ["a & b", '<c> ]] & "', None, None, " ", "-007", "36.60", "2012-02-29", "2014-03-01T08:45:00", None], f"{shown}")
    snapshot = program.expect(0, store, "snapshot", "S", WIDE).out
    check(snapshot.count("<ItemData ") == 10 and 'Value="&lt;c&gt; ]] &amp; &quot;"/>' in snapshot and "CDATA" not in snapshot, snapshot)
    answer = program.expect(0, other, "import", "-", given=snapshot.encode())
    check(answer.out == "-: accepted 14\n" and program.run(other, "table").out == program.run(store, "table").out, "a snapshot of typed items restores")
    item = '<ItemDataInteger ItemOID="I">1  2</ItemDataInteger>'
    place = program.json(path / "typed", "check", "-", given=with_items(file_text("F2", "F"), "\n  " + item).encode())[0]["place"]
    check(place == {"kind": "item", "line": 7, "column": 3, "text": item}, f"{place}")
    return 5


def faulty_typed(good):
    """The same with typed items."""
    def item(body, sort="String", more=""):
        return f'<ItemData{sort} ItemOID="I"{more}>{body}</ItemData{sort}>'

    forty = "1234567890" * 4
    subjects = "".join(f'<SubjectData SubjectKey="N{i}" TransactionType="Insert"/>' for i in range(508))
    for body, column, end in (("a&b", 29, 'the text "a&b"'), ("\n  <![CDATA[a]]>\n", 29, 'the text "\\x0a  "'), ("120\n", 29, 'the text "120\\x0a"'),
                              ("<![CDATA[a\tb>]]>", 29, "<![CDATA[a\\x09b>]]>"), ("<![CDATA[ab]]> ", 43, 'the text " "'), ("a<![CDATA[>]]>", 30, "<![CDATA[>]]>"),
                              ("a  b\x7f" + forty * 3, 29, 'the text "a  b\\x7f' + (forty * 3)[:112] + ' .."')):
        yield 4, with_items(good, item(body)), f"6:{column}", f"at {end}"
    yield 4, with_items(good, item("a")).replace("</ItemDataString>", "</ItemData>"), "6:30", "at </ItemData>"
    yield 4, with_items(good, item("a")).split("</ItemDataString>")[0], "6:30", "at the end"
    yield 5, with_items(good, item("a", "Any")), "6:1", 'at <ItemDataAny ItemOID="I">'
    yield 5, with_items(good, item("ab<AuditRecord/>")), "6:31", "at <AuditRecord/>"
    yield 6, with_items(good, item("a", more=' Value="a"')), "6:1", 'at <ItemDataString ItemOID="I" Value="a">'
    yield 7, with_items(good, item("a", "Float", ' TransactionType="add"')), "6:1", 'at <ItemDataFloat ItemOID="I" TransactionType="add">'
    yield 7, with_items(good, item("1  2 ", "Integer", "\n   ")), "6:1", 'at <ItemDataInteger ItemOID="I" >1  2 </ItemDataInteger>'
    yield 7, with_items(good, item("2014-02-29", "Date")), "6:1", "at " + item("2014-02-29", "Date")
    yield 7, with_items(good, item(f"<![CDATA[{forty}5]]>")), "6:1", "at " + item(f"<![CDATA[{forty}5]]>")
    yield 7, with_items(good, item("a b " * 40)), "6:1", 'at <ItemDataString ItemOID="I">' + ("a b " * 40)[:92] + " .."
    yield 10, with_items(good.replace("Transactional", "Snapshot"), item("a&b", more=' TransactionType="Update"')), "6:1", 'at <ItemDataString ItemOID="I" TransactionType="Update">'
    yield 11, with_items(good, item("a") + "\n" + item("b")), "7:1", "at " + item("b")
    yield 11, with_items(good, item("a") + '\n<ItemDataDate ItemOID="I"/>'), "7:1", 'at <ItemDataDate ItemOID="I"/>'
    yield 12, with_items(good, item("a", more=' TransactionType="Update"')), "6:1", "at " + item("a", more=' TransactionType="Update"')
    yield 13, with_items(good, item("a") + "\n" + item("1.0", "Float").replace('"I"', '"J"')).replace("<SubjectData", subjects + "<SubjectData", 1), "6:1", "at " + item("a")
    yield 16, with_items(good, item("a") + '\n<ItemData ItemOID="J"/>'), "7:1", 'at <ItemData ItemOID="J"/>'
    yield 16, with_items(good, '<ItemData ItemOID="J"/>\n' + item("a&b")), "7:1", 'at <ItemDataString ItemOID="I">'


def faulty(good):
    """Files with one fault each: the number, the text, and how the answer has to begin and end."""
    subject = '<SubjectData SubjectKey="F" TransactionType="Insert"/>'
    many = "\n".join(f'<SubjectData SubjectKey="N{i}" TransactionType="Insert"/>' for i in range(513))
    yield 3, good + " " * 262144, "8:", "at byte 262145"
    yield 4, "", "1:1", "at the end"
    yield 4, good[:good.index("  </Cli")], "6:1", "at the end"
    yield 4, good[:good.index(' Transac', 200)], "5:5", 'at <SubjectData SubjectKey="F"'
    yield 4, good + "junk \x01", "8:1", 'at the text "junk \\x01"'
    yield 4, good.replace("</ODM>", "</Odm>"), "7:1", "at </Odm>"
    yield 5, good.replace("SubjectData", "AdminData"), "5:5", 'at <AdminData SubjectKey="F" TransactionType="Insert"/>'
    yield 6, good.replace('"F" Tr', '"F"\n  Sex="F" Tr'), "5:5", 'at <SubjectData SubjectKey="F" Sex="F" TransactionType="Insert"/>'
    yield 7, good.replace("03-01", "02-29"), "2:1", 'at <ODM xmlns="http://www.cdisc.org/ns/odm/v1.3" FileType="Transactional" FileOID="F" ..'
    yield 8, good.replace('"ST"', '"SU"'), "4:3", 'at <ClinicalData StudyOID="SU" MetaDataVersionOID="V1">'
    yield 9, good.replace('"F"', '"F" PriorFileOID="E"', 1), "2:1", 'FileOID="F" PriorFileOID="E" ..'
    yield 10, good.replace(' TransactionType="Insert"', ""), "5:5", 'at <SubjectData SubjectKey="F"/>'
    yield 11, good.replace(subject, subject * 2), "5:59", f"at {subject}"
    yield 12, good.replace("Insert", "Update"), "5:5", "at " + subject.replace("Insert", "Update")
    yield 13, good.replace(subject, many), "517:1", 'at <SubjectData SubjectKey="N512" TransactionType="Insert"/>'


def refusals(program, path):
    """A refused file is named with number, words and place, and the store is not even written again."""
    store, count = begin(program, path, "refusals"), 0
    before, file = (store.read_bytes(), store.stat().st_ino), path / "faulty.xml"
    for number, text, place, end in itertools.chain(faulty(file_text("F")), faulty_typed(file_text("F"))):
        file.write_text(text)
        answer = program.expect(1, store, "import", file)
        check(answer.out.startswith(f"{file}:{place}") and f": refused {number} (" in answer.out and answer.out.endswith(f"{end}\n"), f"{number}: {answer}")
        check((store.read_bytes(), store.stat().st_ino) == before, f"{number}: refused and kept")
        count += 1
    for words in (("withdraw", "F"), ("open", "ST", "V1")):
        program.expect(1, store, *words)
        check((store.read_bytes(), store.stat().st_ino) == before, f"{words}: refused and kept")
    return count + 2


def checks(program, path):
    """A check answers as import does, and keeps nothing; several files are judged one upon another."""
    store = begin(program, path, "checks")
    before = store.read_bytes()
    visits = [CHAIN / f"visit-{i}.xml" for i in (1, 2, 3, 4)]
    answer = program.expect(1, store, "check", *visits)
    check([line.split(": ", 1)[1] for line in answer.out.splitlines()] == ["would be accepted 12", "would be accepted 5", "would be accepted 2",
          'would be refused 12 (not live) at <FormData FormOID="VS">'], f"{answer}")
    check(store.read_bytes() == before, "a check keeps nothing")
    program.expect(3, store, "import", visits[0], path / "none")
    check(store.read_bytes() == before, "a name that is wrong is told before anything is taken")
    return 2


def names(program, path):
    """File names of any bytes give JSON that can be read."""
    store, count = begin(program, path, "names"), 0
    for name, shown in ((b"\xc3\xa9.xml", "\u00e9.xml"), (b"\xff\xe2\x82.xml", "\ufffd\ufffd\ufffd.xml"), (b"\xed\xa0\x80 \xf4\x90\x80\x80", "\ufffd" * 3 + " " + "\ufffd" * 4),
                        (b'a"b\\c\n\x01\x7f', 'a"b\\c\n\x01\x7f'), (b"\xf0\x9f\x99\x82\xc0\xaf", "\U0001f642\ufffd\ufffd")):
        file = os.fsencode(path) + b"/" + name
        with open(file, "w") as text:
            text.write(file_text("F"))
        answer = subprocess.run([program.path, store, "check", file, "--json"], stdout=subprocess.PIPE, check=True)
        check(json.loads(answer.stdout.decode("utf-8"))["file"] == f"{path}/{shown}", f"{name}: {answer.stdout}")
        count += 1
    return count


def answers(program):
    with folder() as path:
        count = usage(program, path / "nothing")
        check(not (path / "nothing").exists(), "a wrong use makes no store")
        for part in (objects, tables, typed, snapshots, outputs, refusals, checks, names):
            count += part(program, path)
    return f"{count} calls answered as they should be, in text and JSON, with their exit statuses"
