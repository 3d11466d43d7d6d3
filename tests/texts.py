#!/usr/bin/env python3
"""texts.py PROGRAM FILE..: texts of CSV and JSON Lines, selections and field texts, each in an empty store, with the answers of an independent reference.

A case is a line of JSON: its kind `case`, the field texts `fields`, and what is wanted, or the line that refuses it. Of `csv` and `jsonl` it has the null
text and the input in hexadecimal, and wanted are the rows, each as a line of JSON. Of `query` it has the rows of the table, the columns, the conditions and
the limit, and the rows that are selected. Of `fields` it has the texts as they are printed. With `memory` the command that it is about is run with each
allocation refused too.

Prints each difference, and last 'N passed, M failed'."""
import json
import os
import shutil
import sys
import tempfile
from concurrent.futures import ThreadPoolExecutor

sys.dont_write_bytecode = True
import refusals
from running import Answers, chosen_of

answers = Answers.of_arguments(__doc__)
VECTORS = os.path.join(os.path.dirname(os.path.abspath(__file__)), "vectors")
FILES = "texts", "texts_worked"
DONE = 0, b"ok\n", b""
REFUSED = 1, b"", b"refused OutOfMemory\n"
SECTORS = 256
# Of a store that has room for the longest text of a cell, or the most fields.
MANY_SECTORS = 65536


def rows_of(field, *values, refusal=None):
    """Rows of one column, and that they are taken, or why they are refused."""
    lines = [json.dumps([value], separators=(",", ":")) for value in values]
    answer = {"refusal": f"refused {refusal}"} if refusal else {"rows": lines}
    return {"case": "jsonl", "fields": [field], "input": "\n".join(lines).encode().hex(), "sectors": MANY_SECTORS, **answer}


def list_of_nulls(levels, size, outermost=2):
    return f"a:fixed_list({outermost}," + f"fixed_list({size}," * (levels - 1) + "null?" + ")?" * levels


def weights():
    """A row weighs one and its cells, at most 16,777,216; a null weighs as much as its type's least value."""
    refused, long_text = "X15 TooHeavy 1", "x" * 8000000
    yield rows_of("a:utf8", "x" * 16777214)
    yield rows_of("a:utf8", "x" * 16777215, refusal=refused)
    yield rows_of("a:list<dict<int8,utf8>?>?", [long_text] * 2)
    yield rows_of("a:list<dict<int8,utf8>?>?", [long_text] * 3, refusal=refused)
    yield rows_of("a:list<dict<int8,utf8>?>?", [long_text], [long_text] * 3, refusal="X15 TooHeavy 2")
    for field, most in (("a:fixed_binary({})?", 16777214), ("a:struct<x:bool?,y:fixed_binary({})?>?", 16777212), ("a:fixed_list(3,fixed_binary({})?)?", 5592403)):
        yield rows_of(field.format(most), None)
        yield rows_of(field.format(most + 1), None, refusal=refused)
    yield rows_of(list_of_nulls(23, 2), None)
    yield rows_of(list_of_nulls(24, 2), None, refusal=refused)
    yield rows_of(list_of_nulls(31, 2147483647, 0), None)
    yield rows_of(list_of_nulls(31, 2147483647, 2147483647), None, refusal=refused)
    # As much as a table may weigh, for which there is no room, and more.
    yield rows_of("a:fixed_binary(16777214)?", *[None] * 16, refusal="S8 NoRoom 32769") | {"sectors": SECTORS}
    yield rows_of("a:fixed_binary(16777214)?", *[None] * 17, refusal="S7 TooMany Weight")


def entries():
    """As many values as indices name, in each row by itself; a null is none."""
    for kind, most in (("int8", 128), ("uint8", 256), ("int16", 32768), ("uint16", 65536)):
        yield rows_of(f"a:list<dict<{kind},int32>>", list(range(most)))
        yield rows_of(f"a:list<dict<{kind},int32>>", list(range(most + 1)), refusal="X16 DictionaryFull 1")
    yield rows_of("a:list<dict<int32,int32>>", list(range(65537)))
    texts = [None, None, *(str(number) for number in range(129))]
    yield rows_of("a:list<dict<int8,utf8>?>?", texts[:102], texts[:-1], texts[2:-1] * 2)
    yield rows_of("a:list<dict<int8,utf8>?>?", texts[:102], texts, refusal="X16 DictionaryFull 2")


def columns():
    """Binaries, nulls and dictionaries, by name, by place and in CSV, where each also has memory refused; and items that are too few or too many."""
    fields = ["b:binary?", "f:fixed_binary(2)?", "n:null?", "d:dict<int32,utf8>?", "e:dict<uint64,large_binary>"]
    rows = ['["0a","0b0c",null,"x","ff"]', '[null,null,null,null,"ff"]', '["","0d0e",null,"","00"]', '["0a0b",null,null,"x","ff"]']
    lines = ['{"e":"FF","d":"x","f":"0B0c","b":"0a"}', '[null,null,null,null,"ff"]', '{"b":"","f":"0d0e","n":null,"d":"","e":"00"}', '["0A0b",null,null,"x","ff"]']
    records = ["b,f,n,d,e", "0a,0B0C,-,x,FF", "-,-,-,-,ff", ",0d0e,-,,00", '"0a0b",-,-,x,ff']
    case = {"fields": fields, "rows": rows, "memory": True}
    yield case | {"case": "jsonl", "input": "\n".join(lines).encode().hex()}
    yield case | {"case": "csv", "null": "-", "input": "\n".join(records).encode().hex()}
    for line, refusal in (('["0a","0b0c",null,"x"]', "X2 Width 1"), ('["0a","0b0c",null,"x","ff",1]', "X2 Width 1"), ('["0a","0b",null,"x","ff"]', "X14 FixedWidth 1"),
                          ('["0","0b0c",null,"x","ff"]', "X7 NotHex 1"), ('["0a","0b0c",1,"x","ff"]', "X8 NullMismatch 1")):
        yield {"case": "jsonl", "fields": fields, "input": line.encode().hex(), "refusal": f"refused {refusal}"}


def coded():
    """Dictionaries of each type, whose entries are written in more than one way, by name, by place and in CSV; more entries than indices name, which pieces of
    the rows have each for themselves; values that are refused, and texts in quotes and with escapes."""
    types = ("bool", "int8", "uint64", "date_day", "timestamp_ms", "utf8", "large_utf8", "binary", "large_binary", "fixed_binary(1)")
    fields = [f"c{i}:dict<{'u' * (i % 2)}int{8 << i % 4},{name}>?" for i, name in enumerate(types)] + ["n:dict<int8,null>?"]
    first, other = '[true,-1,7,0,-5,"","é","","ff","0a",null]', '[false,1,18446744073709551615,-1,5,"x","x","00","","0b",null]'
    nulls, mixed = f"[{','.join(['null'] * 11)}]", '[false,-1,7,-1,5,"","x","","ff","0b",null]'
    lines = [first, other, first.replace("ff", "FF").replace("é", "\\u00e9"), nulls, mixed, other]
    records = ["true,-1,7,0,-5,\"\",é,,ff,0a,-", "false,01,18446744073709551615,-1,5,x,\"x\",00,,0B,-", "true,-01,07,00,-005,,é,,FF,0A,-", "-,-,-,-,-,-,-,-,-,-,-",
               "false,-1,7,-1,5,,x,,Ff,0b,-", "false,1,18446744073709551615,-01,5,x,x,00,,0b,-"]
    rows = [first, other, first, nulls, mixed, other]
    header = ",".join(names_of(fields))
    case = {"fields": fields, "rows": rows, "memory": True}
    yield case | {"case": "jsonl", "input": "\n".join(lines).encode().hex()}
    yield case | {"case": "csv", "null": "-", "input": "\n".join([header, *records]).encode().hex()}
    named = ["{" + ",".join(f'"{name}":{json.dumps(value)}' for name, value in reversed(list(zip(names_of(fields), json.loads(line))))) + "}" for line in lines]
    yield {"case": "jsonl", "fields": fields, "rows": rows, "input": "\n".join(named).encode().hex()}
    for kind, most in (("int8", 128), ("uint8", 256), ("int16", 32768)):
        for count in (most, most + 1, most + 2):
            values = [*range(count), 0, count - 1]
            yield {"case": "csv", "fields": [f"a:dict<{kind},utf8>", "b:int32"], "null": "-", "input": "".join(["a,b\n", *(f"v{i},{i}\n" for i in values)]).encode().hex(),
                   "rows": [f'["v{i}",{i}]' for i in values], "sectors": MANY_SECTORS}
            yield rows_of(f"a:dict<{kind},int32>", *values)
    for field, text, refusal in (("dict<int8,int8>", "128", "X5 OutOfRange"), ("dict<int8,int8>", "x", "X4 NotANumber"), ("dict<int8,bool>", "yes", "X6 NotABool"),
                                 ("dict<int8,binary>", "0", "X7 NotHex"), ("dict<int8,fixed_binary(2)>", "0a", "X14 FixedWidth"), ("dict<int8,int8>", "-", "X4 NotANumber")):
        good = {"dict<int8,bool>": "true", "dict<int8,fixed_binary(2)>": "0a0b"}.get(field, "01")
        yield {"case": "csv", "fields": [f"a:{field}", "b:utf8"], "null": "-", "input": f"a,b\n{good},x\n{good},y\n{text},z\n".encode().hex(), "refusal": f"refused {refusal} 3"}


def full_dictionaries():
    """Dictionaries that are full once or more often, which ends a record batch: with nulls, beside another one, in quotes, by name and by place."""
    for kind, most in (("int8", 128), ("uint8", 256), ("int16", 32768)):
        fields = [f"a:dict<{kind},utf8>?", "b:dict<uint16,int32>?", "c:int32", f"d:dict<{kind},fixed_binary(2)>"]
        for count in (most, most + 1, 2 * most, 2 * most + 1, 3 * most):
            if count > 65536:
                continue
            places = [*range(count), 0, most - 1, most, count - 1]
            cells = [(None if i % 7 == 3 else f"v{i}", None if i % 5 == 2 else i % 3, i, f"{i % (most + 1):04x}") for i in places]
            rows = [json.dumps(cell, separators=(",", ":")) for cell in cells]
            case = {"fields": fields, "rows": rows, "sectors": MANY_SECTORS}
            records = [[("-" if value is None else str(value)) for value in cell] for cell in cells]
            plain = "".join(f"{','.join(record)}\n" for record in records)
            yield case | {"case": "csv", "null": "-", "input": f"a,b,c,d\n{plain}".encode().hex()}
            quoted = plain.replace(",0,", ',"0",', 1)
            yield case | {"case": "csv", "null": "-", "input": f"a,b,c,d\n{quoted}".encode().hex()}
            yield case | {"case": "jsonl", "input": "\n".join(rows).encode().hex()}
            named = [json.dumps({name: value for name, value in zip("dbca", (cell[3], cell[1], cell[2], cell[0])) if value is not None}) for cell in cells]
            yield case | {"case": "jsonl", "input": "\n\n".join(named).encode().hex()}
    # The record that is refused is numbered from the first one of the text.
    values = "".join(f"v{i},{i}\n" for i in range(300))
    for quote in ("", '"w",0\n'):
        yield {"case": "csv", "fields": ["a:dict<int8,utf8>", "b:int32"], "null": "-", "input": f"a,b\n{quote}{values}x,y\n".encode().hex(),
               "refusal": f"refused X4 NotANumber {302 if quote else 301}"}
    lines = "".join(f'["v{i}",{i}]\n' for i in range(300))
    yield {"case": "jsonl", "fields": ["a:dict<int8,utf8>", "b:int32"], "input": f'{lines}["x","y"]\n'.encode().hex(), "refusal": "refused X4 NotANumber 301"}
    yield {"case": "csv", "fields": ["a:dict<int8,bool>?", "b:dict<int8,int16>"], "null": "", "input": ("a,b\n" + "".join(f",{i}\n" for i in range(130))).encode().hex(),
           "rows": [f"[null,{i}]" for i in range(130)], "memory": True}


def names_of(fields):
    return [field.split(":")[0] for field in fields]


def deep(levels, closed, other, **answer):
    """A field of this many levels, with as many brackets at its end, beside another."""
    return {"case": "fields", "fields": ["a:" + "list<" * (levels - 1) + "int8" + ">" * (closed - 1), other], **answer}


def deep_fields():
    printed = '"a":' + 'list<"item":' * 31 + "int8" + ">" * 31
    yield deep(32, 32, "b:int8", printed=[printed, '"b":int8'])
    yield deep(33, 33, "b:int8", refusal="refused P2 Limit")
    yield deep(33, 33, "b:int9", refusal="refused P1 BadText 2")
    yield deep(20000, 20000, "b:int8", refusal="refused P2 Limit")
    yield deep(10000, 10001, "b:int8", refusal="refused P1 BadText 1")


def many_fields():
    yield {"case": "fields", "fields": ["a:int8"] * 2048, "printed": ['"a":int8'] * 2048, "sectors": MANY_SECTORS}
    yield {"case": "fields", "fields": ["a:int8"] * 2049, "refusal": "refused P2 Limit"}


def long_table(count):
    """A query of a table of more rows than a record batch has: each third one is a null."""
    values = [None if i % 3 == 2 else i - 5 for i in range(count)]
    kept = [f"[{value}]" for value in values if value is not None and value >= count - 20]
    table = [json.dumps([value]) for value in values]
    return {"case": "query", "fields": ["a:int32?"], "table": table, "columns": ["a"], "conditions": [f"a >= {count - 20}"], "limit": None, "rows": kept}


def long_tables():
    yield long_table(9000)


def all_cases():
    """Each case, by the name of the file or of the function that has it, and its number there."""
    for name in FILES:
        with open(os.path.join(VECTORS, f"{name}.jsonl"), encoding="utf-8") as lines:
            yield from ((f"{name}-{number}", json.loads(line)) for number, line in enumerate(lines, 1))
    for made in (long_tables, weights, entries, columns, coded, full_dictionaries, deep_fields, many_fields):
        yield from ((f"{made.__name__}-{number}", case) for number, case in enumerate(made(), 1))


def query_words(case):
    """The words of `query` after the table; of texts all rows are asked for."""
    if case.get("columns"):
        yield from ("--columns", ",".join(case["columns"]))
    if case.get("limit") is not None:
        yield from ("--limit", str(case["limit"]))
    yield from ("--", *case.get("conditions", []))


def commands(case, store):
    """The words of each command of a case, and its input; the last one prints what is wanted."""
    yield ["create", store, "t", "--", *case["fields"]], b""
    if case["case"] == "fields":
        yield ["schema", store, "t"], b""
        return
    if case["case"] == "query":
        yield ["append", store, "t", "--as", "jsonl"], "\n".join(case["table"]).encode()
    else:
        yield ["append", store, "t", "--as", case["case"], "--null", case.get("null", "")], bytes.fromhex(case["input"])
    yield ["query", store, "t", *query_words(case)], b""


def wanted(case):
    if "refusal" in case:
        return 1, b"", f"{case['refusal']}\n".encode()
    return 0, "".join(f"{line}\n" for line in case["printed" if case["case"] == "fields" else "rows"]).encode(), b""


def on_a_store(sectors, number=0):
    """A new store of this many sectors, without tables."""
    return shutil.copyfile(empty[sectors], os.path.join(room, f"store{number}"))


def answer_of(case, number):
    """Of the first command that is not done, or of the last one."""
    store = on_a_store(case.get("sectors", SECTORS), number)
    for words, given in commands(case, store):
        answer = answers.run(words, given)
        if answer != DONE:
            break
    os.remove(store)
    return answer


def without_memory(case):
    """Each allocation of the command that a case is about refused in turn: it answers and leaves the store as it does undisturbed, or is refused and leaves it
    as it was."""
    store = on_a_store(SECTORS)
    about = {"query": "query", "fields": "create"}.get(case["case"], "append")
    for words, given in commands(case, store):
        if words[0] == about:
            break
        answers.run(words, given)
    before = refusals.content(store)
    undisturbed, runs = refusals.each_refused([answers.program, *words], given, refusals.on_a_copy(store))
    refused = *REFUSED, before
    for number, run in enumerate(runs, 1):
        answers.compare(f"{case}, allocation {number}", run, refused if run == refused else undisturbed)
    answers.compare(f"{case}, whether a run was refused for memory", refused in runs, True)


# Stores in memory, where the system has such files: each command syncs what it wrote.
with tempfile.TemporaryDirectory(dir="/dev/shm" if os.path.isdir("/dev/shm") else None) as room:
    empty = {sectors: os.path.join(room, f"empty{sectors}") for sectors in (SECTORS, MANY_SECTORS)}
    for sectors, store in empty.items():
        answers.compare("format", answers.run(["format", store, str(sectors)]), DONE)
    cases = dict(all_cases())
    chosen = chosen_of(cases, answers.given)
    with ThreadPoolExecutor(os.cpu_count()) as pool:
        for answers.case, answer in zip(chosen, pool.map(lambda name, number: answer_of(cases[name], number), chosen, range(len(chosen)))):
            answers.compare(f"{str(cases[answers.case]):.300}", answer, wanted(cases[answers.case]))
    for name in chosen:
        if cases[name].get("memory"):
            answers.plays((name, without_memory, cases[name]))
sys.exit(answers.tell("texts"))
