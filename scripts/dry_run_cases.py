#!/usr/bin/env python3
"""Writes the lines of a dry run in crates/land_cases/stdin: each cause in several lines, at near and far places, and limits from both sides.

    scripts/dry_run_cases.py      prints the lines
"""
import sys

HEAD = '{"do":"enter","object":%s,"first":"2000-01-01",'
SQUARE = "[[0,0],[90,0],[90,90],[0,90]]"
HOLE = "[[10,10],[20,10],[10,20]]"


def accepted():
    """Commands that the later lines name, and refusals of the register."""
    yield '{"do":"enter","object":10,"first":"2000-01-01","unit":{"name":"Mill"}}'
    yield '{"do":"enter","object":20,"first":"2000-01-01","party":{"name":"Ana Stra\u00dfe","code":"naturalPerson"}}'
    yield '{"do":"enter","object":10,"first":"2000-01-01","unit":{}}'
    yield '{"do":"amend","object":99,"first":"2000-01-01","unit":{}}'
    yield '{"do":"amend","object":10,"first":"2000-01-01","unit":{}}'
    yield '{"do":"amend","object":10,"first":"2001-01-01","party":{"code":"x"}}'
    yield '{"do":"enter","object":1,"first":"2000-01-01","parcel":{"unit":20,"label":"A"}}'
    yield '{"do":"enter","object":1,"first":"2000-01-01","parcel":{"unit":10,"label":"A","shape":' + SQUARE + ',"holes":[' + HOLE + "]}}"
    yield '{"do":"enter","object":30,"first":"2000-01-01","right":{"unit":10,"party":20,"code":"ownership","share":[1,2]}}'
    yield '{"do":"retire","object":30,"last":"1999-12-31"}'
    yield '{"do":"retire","object":30,"last":"2001-12-31"}'
    yield '{"do":"retire","object":30,"last":"2002-12-31"}'


def texts():
    """Lines that are no JSON, and JSON that is no object."""
    whole = '{"do":"retire","object":10,"last":"2000-01-01"}'
    yield from (whole[:it] for it in (1, 2, 4, 5, 6, 13, 14, 22, 23, 25, 26, 33, 45, 46))
    for line in ("hello", " ", "\t\r", "{}", " {} ", "[]", '  "x"', "5", "null", " true ", "{}{}", "{} {", "{},", "{},1", "]", "}", ",", ":", "\\", "{,}", "{]",
                 "{1:2}", '{"a"}', '{"a" 1}', '{"a",1}', '{"a":}', '{"a":,1}', '{"a"::1}', '{"a":1 "b":2}', '{"a":1,}', '{"a":1,,"b":2}',
                 '{"a":1]', '{"a":1}}', '{"a":1}]', '{"a":"b":1}', '"a":1', "[1 2]", "[1,]", "[1,,2]", "[1:2]", '["a":1]', "[1}", "[", "[1",
                 "[1,", '{"a":tru}', '{"a":True}', '{"a":nul', '{"a":01}', '{"a":1.}', '{"a":.5}', '{"a":+1}', '{"a":-}', '{"a":1e}', '{"a":0x1}',
                 '{"a":1e999}', '{"a":-1e999,"b":2}', '{"a":1e308}', '{"a":"x', '{"a":"x\\"}', '{"a":"\\x"}', '{"a":"\\u12"}',
                 '{"a":"\\ud800"}', '{"a":"\\ud800\\u0041"}', '{"a":"\\ud83d\\ude00"}', '{"a":"\x01"}', '{"a":"\t"}', "{'a':1}", '{"a":1}x', '{"a":1} // x',
                 "[" * 127 + "]" * 127, "[" * 128 + "]" * 128, '{"a":' * 127 + "1" + "}" * 127, '{"a":' * 128 + "1" + "}" * 128, '{"a":"\u00e9' + '",}'):
        yield line


def operations():
    for value in ('"Enter"', '"entering"', '""', "null", "5", "true", "[]", '["enter"]'):
        yield '{"do":%s,"object":1,"first":"2000-01-01","unit":{}}' % value
    yield '{"object":1,"first":"2000-01-01","unit":{}}'
    yield ' {"object":1}'
    yield '{"object":0,"do":"erase"}'
    yield '{"do":"erase","do":"retire","object":10,"last":"2000-01-32"}'


def numbers():
    for value in ("0", "-1", "-0", "1.0", "1e2", "2147483648", "2147483647.0", "4294967296", "18446744073709551616", '"1"', "null", "true", "[1]", "{}"):
        yield '{"do":"enter","object":%s,"first":"2000-01-01","unit":{}}' % value
        yield '{"do":"retire","last":"2000-01-01","object":%s}' % value
        yield HEAD % 40 + '"right":{"code":"x","unit":%s}}' % value
        yield HEAD % 40 + '"right":{"code":"x","unit":10,"party":%s}}' % value


def days():
    for value in ('"2000-02-30"', '"2001-02-29"', '"2000-13-01"', '"2000-1-1"', '"20000101"', '" 2000-01-01"', '"2000-01-01 "', '"10000-01-01"', '"-001-01-01"',
                  '"\u0662000-01-0"', '""', "null", "20000101", "[]", "false"):
        yield '{"do":"enter","object":41,"first":%s,"unit":{}}' % value
        yield '{"do":"amend","object":10,"unit":{},"first":%s}' % value
        yield '{"do":"retire","object":10,"last":%s}' % value
    yield '{"do":"enter","object":41,"last":"2000-01-01","unit":{}}'
    yield '{"do":"retire","object":10,"first":"2000-01-01"}'


def names():
    for value in ('""', '"%s"' % ("x" * 201), '"%s"' % ("\u00e9" * 100 + "x"), '"\\u0000"', '"a\\u0000b"', "5", "true", "[]", "{}"):
        yield HEAD % 42 + '"unit":{"name":%s}}' % value
        yield HEAD % 42 + '"party":{"code":%s}}' % value
        yield HEAD % 42 + '"party":{"code":"x","name":%s}}' % value
        yield HEAD % 42 + '"parcel":{"label":%s,"unit":10}}' % value
        yield HEAD % 42 + '"responsibility":{"code":%s,"unit":10}}' % value


def others():
    for value in ("-1", "4294967296", "1.5", '"5"', "true", "[]"):
        yield HEAD % 43 + '"parcel":{"unit":10,"label":"B","area":%s}}' % value
    for value in ("1", '"true"', "[]", "{}"):
        yield HEAD % 43 + '"restriction":{"unit":10,"code":"x","required":%s}}' % value
    for value in ("1", "[]", "[1]", "[1,2,3]", '[1,"2"]', "[1.0,2]", "[-1,2]", "[0,2]", "[3,2]", "[1,1000000001]", "[1,18446744073709551615]", "{}", "[[1],2]"):
        yield HEAD % 43 + '"right":{"unit":10,"code":"x","share":%s}}' % value
    for value in ("1", "[]", "[1]", "[1,2,3]", '[1,"2"]', "[1.0,2]", "[100000000001,0]", "[0,-100000000001]", "[9223372036854775808,0]",
                  "[-9223372036854775808,0]", "{}"):
        yield HEAD % 43 + '"parcel":{"unit":10,"label":"B","spot":%s}}' % value


def bodies():
    yield HEAD % 44 + '"unit":{},"party":{"code":"x"}}'
    yield '{"do":"enter","object":44,"unit":{},"first":"2000-01-01","parcel":{}}'
    yield HEAD % 44 + '"unit":{},"units":{}}'
    yield HEAD % 44 + '"aa":{},"unit":{}}'
    yield HEAD % 44 + '"right":{},"restriction":{},"unit":{}}'
    yield HEAD[:-1] % 44 + "}"
    yield "  " + HEAD[:-1] % 44 + "}"
    for value in ("null", "[]", "5", '"x"', "true"):
        yield HEAD % 44 + '"unit":%s}' % value
        yield HEAD % 44 + '"responsibility":%s}' % value
    for name in ("party", "parcel", "right", "restriction", "responsibility"):
        yield HEAD % 44 + '"%s":{}}' % name
    yield HEAD % 44 + '"parcel":{"unit":10}}'
    yield HEAD % 44 + '"parcel":{"label":"x"}}'
    yield HEAD % 44 + '"parcel":{"label":null,"unit":10}}'
    yield HEAD % 44 + '"restriction":{"unit":10,"required":true}}'


def unknown():
    for name in ("x", "Name", "", "a b", "\\u0061\\n", "\\u0001", '\\"', "\u00e9", "\\\\"):
        yield HEAD % 45 + '"unit":{"%s":1}}' % name
        yield HEAD % 45 + '"unit":{"name":"N","%s":1}}' % name
        yield HEAD % 45 + '"%s":{}}' % name
        yield '{"do":"retire","object":10,"last":"2000-01-01","%s":1}' % name
    yield HEAD % 45 + '"party":{"code":"x","share":[1,2]}}'
    yield HEAD % 45 + '"parcel":{"unit":10,"label":"B","party":20}}'
    yield HEAD % 45 + '"responsibility":{"unit":10,"code":"x","required":true}}'
    yield HEAD % 45 + '"unit":{"b":1,"a":2}}'
    yield '{"unit":{},"do":"retire","object":10,"last":"2000-01-01","party":{}}'


def shapes():
    parcel = HEAD % 46 + '"parcel":{"unit":10,"label":"B",%s}}'
    for ring in ("5", "{}", '"x"', "[]", "[[0,0],[9,0]]", "[[0,0],[9,0],[18,0]]", "[[0,0],[90,90],[90,0],[0,90]]", "[[0,0],[0,0],[90,0],[0,90]]",
                 "[[0,0],[90,0],[0,90],[0,0]]", "[[0,0],[90,0],[90,90],[40,0]]", "[[0,0],[90,0],[40,0],[40,90]]", "[[0,0],[50,90],[90,0],[50,0],[50,80]]",
                 "[[0,0],[5],[9,9]]", "[[0,0],[9,0],5]", "[[0,0],[9,0],[9,100000000001]]", "[5,[0,0],[9,0]]", '[[0,0],[9,0],[9,"9"]]', "[[0,0],[9,0],[9,9.5]]"):
        yield parcel % ('"shape":%s' % ring)
        yield parcel % ('"shape":%s,"holes":[%s]' % (SQUARE, ring))
        yield parcel % ('"holes":[%s,%s],"shape":%s' % (HOLE, ring, SQUARE))
    for holes in ("5", "{}", "[5]", "[null]", "[[]]", "[[[1,1],[2,1],[1,100]]]", "[%s,[[80,80],[99,80],[80,90]]]" % HOLE, "[%s]" % ",".join([HOLE] * 99),
                  "[%s]" % ",".join([HOLE] * 100), "[%s,%s]" % (SQUARE, HOLE)):
        yield parcel % ('"shape":%s,"holes":%s' % (SQUARE, holes))
        yield parcel % ('"holes":%s' % holes)
    yield parcel % '"holes":[]'
    yield parcel % '"shape":null,"holes":[]'
    yield parcel % ('"shape":%s,"holes":null' % SQUARE)
    far = ",".join("[%d,%d]" % (it, it * it) for it in range(1000))
    yield parcel % ('"shape":[%s]' % far)
    yield parcel % ('"shape":[%s,[1000,1000000]]' % far)
    many = ",".join("[%d,%d]" % (it, it * it) for it in range(998))
    yield parcel % ('"shape":[%s],"holes":[[[1,2],[2,5],[2,4]]]' % many)


def several():
    """Several faults in one line, and members that are given twice."""
    yield '{"do":"enter","object":0,"first":"x","unit":5}'
    yield '{"do":"enter","object":1,"first":"x","unit":5,"y":1}'
    yield '{"do":"x","object":0,"first":"x","unit":{"name":""}}'
    yield HEAD % 47 + '"parcel":{"spot":[1],"area":-1,"label":"","unit":0}}'
    yield HEAD % 47 + '"parcel":{"unit":10,"label":"B","shape":5,"holes":5,"x":1}}'
    yield HEAD % 47 + '"parcel":{"unit":10,"label":"B","shape":[[0,0],[9,0],[9,"x"]],"holes":[5],"spot":5}}'
    yield HEAD % 47 + '"right":{"unit":10,"x":1}}'
    yield '{"do":"enter","object":0,"object":47,"first":"2000-01-01","unit":{}}'
    yield '{"do":"enter","object":48,"object":0,"first":"2000-01-01","unit":{}}'
    yield '{"do":"enter","object":48,"first":"2000-01-01","unit":{"name":5},"unit":{"name":""}}'
    yield '{"do":"enter","object":48,"first":"2000-01-01","unit":{"name":5},"unit":{"name":"N"}}'
    yield '{"do":"enter","object":49,"first":"2000-01-01","unit":{"\\u006eame":""}}'
    yield '{ "do" : "enter" , "object" : 49 , "first" : "2000-01-00" , "unit" : { } }\r'
    yield '{"unit":{"name":""},"first":"2000-01-01","object":49,"do":"amend"}'


def raw():
    """Lines of bytes: those that are no text, and long ones."""
    yield b"\xff"
    yield b'{"do":"\xc3"}'
    yield b'{"do":"enter","object":1,"first":"2000-01-01","unit":{"name":"\xed\xa0\x80"}}'
    yield b'{"do":"enter","object":1,"first":"2000-01-01","unit":{"name":"\xf0\x9f\x98'
    good = b'{"do":"retire","object":10,"last":"2000-01-01"}'
    yield good + b" " * (65536 - len(good))
    yield good + b" " * (65537 - len(good))
    yield b"x" * 65536
    yield b"x" * 65537
    yield b"\xff" * 70000


def lines():
    """The lines, as bytes. Two of them are empty."""
    parts = (accepted, texts, operations, numbers, days, names, others, bodies, unknown, shapes, several)
    return [*(it.encode() for part in parts for it in part()), *raw(), b"", b"", b'{"do":"retire","object":20,"last":"2005-01-01"']


def main():
    sys.stdout.buffer.write(b"\n".join(lines()))


if __name__ == "__main__":
    main()
