"""Named cases of compare.py: places of LOG.md and EQUATIONS.md where two readers may differ.

The files are those of the example: an epoch of eleven satellites (nine of GPS), and nine GPS satellites of two records
each.
"""

import re

from tools.compare.second import recheck

OBS, NAV, SETTINGS = range(3)
END = b" " * 60 + b"END OF HEADER       \n"


def header_line(text, label):
    """A line of a header."""
    return text.ljust(60) + label.ljust(20) + b"\n"


def named_cases(contents):
    """(name, changed contents) of each case."""
    for role, changes in ((OBS, observation_cases), (NAV, navigation_cases), (SETTINGS, settings_cases)):
        for name, changed in changes(contents[role]):
            if changed == contents[role]:
                raise AssertionError(f"nothing is changed by: {name}")
            new = list(contents)
            new[role] = changed
            yield f"{('observations', 'navigation', 'settings')[role]}, {name}", new
    for name, new in mixed_cases(contents):
        yield name, new


def observation_cases(obs):
    """Changes of the observation file."""
    first, rest = obs.split(b"\n", 1)
    body = obs[obs.index(b"> 2008"):]
    header = obs[:obs.index(b"> 2008")]
    for text in (b"3.05", b"3.0500000", b"3.0500001", b"3", b"3.", b"+3.04", b"2.11", b"2.9999999", b"3.06", b"-3.04",
                 b"", b"3.04E0", b"\t3.04", b"3.0 4", b"x", b"000003.04"):
        yield f"version {text}", text.rjust(9) + first[9:] + b"\n" + rest
    for text in (b"o", b" ", b"N", b"\t"):
        yield f"type {text}", first[:20] + text + first[21:] + b"\n" + rest
    for text in (b"G", b" ", b"\t", b"R", b"E", b"m"):
        yield f"system {text}", first[:40] + text + first[41:] + b"\n" + rest
    for text in (b"RINEX VERSION / TYPE\t", b"RINEX VERSION / TYPE xyz", b" RINEX VERSION / TYP",
                 b"Rinex Version / Type", b"RINEX VERSION / TYP", b"RINEX VERSION / TYPE\r", b"RINEX VERSION / TYPEx"):
        yield f"first label {text}", first[:60] + text + b"\n" + rest
    yield "empty", b""
    yield "one LF", b"\n"
    yield "LF in front", b"\n" + obs
    yield "first line alone", first
    yield "header alone", header
    yield "header without its last LF", header[:-1]
    yield "header and blanks", header + b"  \n\t\n   "
    yield "header and a CR", header + b"\r"
    yield "header and a CR LF", header + b"\r\n"
    types = b"G    4 C1C L1C D1C S1C"
    label = b"SYS / # / OBS TYPES"
    line = header_line(types, label)
    for text in (b"G    5 C1C L1C D1C S1C", b"G    3 C1C L1C D1C S1C", b"G    0", b"G      C1C L1C D1C S1C",
                 b"G   04 C1C L1C D1C S1C", b"G  4   C1C L1C D1C S1C", b"G   \t4 C1C L1C D1C S1C",
                 b"G   +4 C1C L1C D1C S1C", b"G    1 C1C", b"G    2 L1C C1C", b"G    4 C1C C1C D1C S1C",
                 b"G    4 L1C C1C C1C S1C", b"G    4xC1CxL1CxD1CxS1C", b"G    4 C1C     D1C S1C",
                 b"G    4 c1c L1C D1C S1C", b"G    4 C1C L1  D1C S1C", b"Gxx  4 C1C L1C D1C S1C",
                 b"G    4 C1C \t \t D1C S1C", b"g    4 C1C L1C D1C S1C", b" G   4 C1C L1C D1C S1C",
                 b"G    4  C1CL1C D1C S1C", b"G    4\tC1C\tL1C D1C S1C", b"G  4.0 C1C L1C D1C S1C",
                 b"G    4 C1 L1C D1C S1C", b"G   -4"):
        yield f"types {text}", obs.replace(line, header_line(text, label))
    thirteen = b" ".join([b"C1C"] + [b"L%dC" % number for number in range(1, 10)] + [b"D1C", b"S1C", b"S2C"])
    more = header_line(b"       S3C", label)
    comment = header_line(b"a", b"COMMENT")
    for name, text in (
            ("thirteen", header_line(b"G   13 " + thirteen, label)),
            ("fourteen", header_line(b"G   14 " + thirteen, label) + more),
            ("fourteen, comment between", header_line(b"G   14 " + thirteen, label) + comment + more),
            ("fourteen, code on the second", header_line(b"G   14 " + thirteen.replace(b"C1C", b"C1P"), label)
             + more.replace(b"S3C", b"C1C")),
            ("fourteen, one line", header_line(b"G   14 " + thirteen, label)),
            ("fourteen, blank second", header_line(b"G   14 " + thirteen, label) + header_line(b"", label)),
            ("fourteen, second with a name", header_line(b"G   14 " + thirteen, label) + b"G" + more[1:]),
            ("fourteen, second with column 6", header_line(b"G   14 " + thirteen, label) + more[:5] + b"1" + more[6:]),
            ("fourteen, second with column 7", header_line(b"G   14 " + thirteen, label) + more[:6] + b"1" + more[7:]),
            ("fourteen, second with tabs", header_line(b"G   14 " + thirteen, label) + b"\t\t" + more[2:]),
            ("thirteen and one line more", header_line(b"G   13 " + thirteen, label) + more),
            ("twice", line + line), ("none", b""), ("blank line of it in front", header_line(b"", label) + line),
            ("S before", header_line(b"S   14 " + thirteen, label) + more + line),
            ("999", header_line(b"G  999 " + thirteen, label)), ("lower case label", line.replace(b"TYPES", b"types")),
            ("label with a tab", line.rstrip() + b"\t\n"), ("label without blanks", line.rstrip() + b"\n"),
            ("label with more behind column 80", line[:-1] + b"x\n"), ("CR", line[:-1] + b"\r\n")):
        yield f"types: {name}", obs.replace(line, text)
    yield "fourteen types and the header ends", (header.replace(line, b"").replace(END, b"")
                                                 + header_line(b"G   14 " + thirteen, label) + END + body)
    time_line = re.search(rb".*TIME OF FIRST OBS.*\n", obs).group()
    for text in (b"   ", b"GLO", b"UTC", b"gps", b" GP", b"\t  ", b"GP\t", b"BDT"):
        yield f"time system {text}", obs.replace(time_line, time_line[:48] + text + time_line[51:])
    yield "no first time", obs.replace(time_line, b"")
    yield "two first times", obs.replace(time_line, time_line + time_line.replace(b"GPS", b"QZS"))
    for text in (b"G   10", b"R   10", b"    10", b"G", b"g   10"):
        scale = header_line(text, b"SYS / SCALE FACTOR")
        yield f"scale factor {text}", obs.replace(END, scale + END)
        for flag in b"023456":
            event = b">" + b" " * 30 + b"%c  1\n" % flag + scale
            yield f"event of flag {chr(flag)}, scale {text}", header + event + body
    position = re.search(rb".*APPROX POSITION XYZ.*\n", obs).group()
    for text in (b"", b" -3869309.8278", b" -3869309.8278              3717365.8937", b"x",
            b" -3869309.8278x 3436565.4776  3717365.8937",
                 b"             x               3717365.8937", b" -3869309.82781  3436565.4776  3717365.8937",
                 b"-3869309.827801 3436565.47760 3717365.8937\t", b"  8500000.0000        0.0000        0.0000",
                 b"  8500000.0001        0.0000        0.0000", b" -8500000.0001        0.0000        0.0000",
                 b"8500000.0000001-8500000.000000        0.0000", b"-8500000.00000        0.0000        0.0000",
                 b"        0.0000-8500000.00000        0.0000", b"8500000.000000       0.0000        0.0000",
                 b"8500000.0000008500000.0000001        0.0000", b"        0.0000        0.000-8500000.0000001",
                 b"8500000.00000018500000.0000008500000.000000", b"             .             .             .",
                 b"-3869309.82789-3436565.477671 3717365.89374", b"        0.0000        0.0000        0.0000"):
        yield f"position {text}", obs.replace(position, header_line(text, b"APPROX POSITION XYZ"))
    yield "no position", obs.replace(position, b"")
    blank = header_line(b"", b"APPROX POSITION XYZ")
    other = header_line(b" -3869310.8278  3436566.4776  3717366.8937", b"APPROX POSITION XYZ")
    yield "blank position behind", obs.replace(position, position + blank)
    yield "blank position in front", obs.replace(position, blank + position)
    yield "two positions", obs.replace(position, other + position)
    yield "position behind the types", obs.replace(position, b"").replace(END, other + END)
    for text in (b"END OF HEADER\t", b" END OF HEADER", b"END OF HEADE", b"END OF HEADER       x", b"end of header",
            b"END OF HEADER"):
        yield f"end {text}", obs.replace(END, b" " * 60 + text + b"\n")
    yield "long line in the header", obs.replace(END, b"x" * 4097 + b"\n" + END)
    yield "line of 4096 in the header", obs.replace(END, b"x" * 4096 + b"\n" + END)
    yield "line of 4096 and CR in the header", obs.replace(END, b"x" * 4096 + b"\r\n" + END)
    yield "bytes beyond ASCII in the header", obs.replace(END, b"\xff\x00" * 30 + b"\n" + END)
    yield "blank lines in the header", obs.replace(END, b"\n  \n" + END)
    yield "END alone", first + b"\n" + END + body
    epoch = b"> 2008 05 26 05 59 29.9990000  0 11"
    for text in (b"> 2008 05 26 05 59 29.9990000    11", b"> 2008 05 26 05 59 29.9990000  1 11",
                 b"> 2008 05 26 05 59 29.9990000  7 11", b"> 2008 05 26 05 59 29.9990000  x 11",
                 b"> 2008 05 26 05 59 29.9990000  0", b"> 2008 05 26 05 59 29.9990000  0  0",
                 b"> 2008 05 26 05 59 29.9990000  0  x", b"> 2008 05 26 05 59 29.9990000  011 ",
                 b"> 2008 05 26 05 59 29.9990000  0011", b"> 2008 05 26 05 59 29.9990000  0 12",
                 b"> 2008 05 26 05 59 29.9990000  0 10", b"> 2008 05 26 05 59 29.9990000  0999",
                 b"> 2008 05 26 05 59 29.9990000  0 1 1", b"> 2008 05 26 05 59 29.9990000  0+11",
                 b"> 2008 05 26 05 59 60.0000000  0 11", b"> 2008 05 26 05 59 59.9999999  0 11",
                 b"> 2008 05 26 05 59 -0.0000000  0 11", b"> 2008 05 26 05 59 -1.0000000  0 11",
                 b"> 2008 05 26 05 59+29.999000  0 11", b"> 2008 05 26 05 59 +9.9990000  0 11",
                 b"> 2008 05 26 05 59 29.99900000 0 11", b"> 2008 05 26 05 59 29.9990001  0 11",
                 b"> 2008 05 26 05 59 29.99900010 011", b"> 2008 05 26 05 5929.99900001  0 11",
                 b"> 2008 05 26 05 59 2.99900000  0 11", b"> 2008 05 26 05 59 2.9990000   0 11",
                 b"> 2008 05 26 05 59 29.         0 11", b"> 2008 05 26 05 59 29          0 11",
                 b"> 2008 05 26 05 59   .5        0 11", b"> 2008 05 26 05 59    .        0 11",
                 b"> 2008 05 26 05 59             0 11", b"> 2008 05 26 05 59 2.99E1      0 11",
                 b"> 2008 05 26 05 59 30 .5       0 11", b"> 2008 05 26 05 59 00000029.9  0 11",
                 b"> 2008 05 26 05 59  29.9990000 0 11", b"> 1979 05 26 05 59 29.9990000  0 11",
                 b"> 1980 01 05 23 59 59.9999999  0 11", b"> 1980 01 06 00 00  0.0000000  0 11",
                 b"> 2099 12 31 23 59 59.9999999  0 11", b"> 2100 01 01 00 00  0.0000000  0 11",
                 b"> 2008 13 26 05 59 29.9990000  0 11", b"> 2008 00 26 05 59 29.9990000  0 11",
                 b"> 2008 02 29 05 59 29.9990000  0 11", b"> 2009 02 29 05 59 29.9990000  0 11",
                 b"> 2008 06 31 05 59 29.9990000  0 11", b"> 2008 05 00 05 59 29.9990000  0 11",
                 b"> 2008 05 26 24 00 00.0000000  0 11", b"> 2008 05 26 05 60 29.9990000  0 11",
                 b"> 2008  5 26  5 59 29.9990000  0 11", b"> 2008 5  26 5  59 29.9990000  0 11",
                 b"> 20 8 05 26 05 59 29.9990000  0 11", b">  208 05 26 05 59 29.9990000  0 11",
                 b"> +008 05 26 05 59 29.9990000  0 11", b">x2008x05x26x05x59x29.9990000  0 11",
                 b">02008 05 26 05 59 29.9990000xx0 11", b"> 2008 05 26 05 59 29.9990000  0 11xxxx",
                 b"> 2008\t05 26 05 59 29.9990000  0 11", b"> 2008 05 26 05 59 29.9990000  0 11\xc3\xa9",
                 b"> 2008 05 26 05 59 29.9990000  0 11 \x7f", b"  2008 05 26 05 59 29.9990000  0 11", b"", b"   ",
                 b"\t", b">", b">                              2 11", b">                              6 11",
                 b">                              5 11", b">                              0 11",
                 b"> 2008 05 26 05 59 29.9990000  9 xx", b"> 2008 xx 26 05 59 29.9990000  0 xx",
                 b"x 2008 xx 26 05 59 29.9990000  9 xx"):
        yield f"epoch line {text}", obs.replace(body[:body.index(b"\n")], text)
    yield "blank line in front of the epoch", header + b"\n" + body
    yield "blank and tab line in front of the epoch", header + b" \t\n" + body
    for name, end in (("blank lines", b"\n \n\t\n"), ("a long blank line", b" " * 5000 + b"\n"), ("a CR", b"\r"),
            ("CR LF", b"\r\n"),
                      ("byte 26", b"\x1a"), ("a blank line of 0", b"\0\n"), ("form feed", b"\f\n"),
                      ("blanks without LF", b"  ")):
        yield f"behind the epoch: {name}", obs + end
        yield f"behind the epoch, and a line is missing: {name}", obs.replace(b"  0 11", b"  0 12") + end
    yield "no LF at the end", obs[:-1]
    yield "CR and no LF at the end", obs[:-1] + b"\r"
    yield "CR LF", obs.replace(b"\n", b"\r\n")
    yield "CR CR LF in the body", header + body.replace(b"\n", b"\r\r\n")
    event = header_line(b"", b"COMMENT")
    for flag in b"23456":
        mark = b">" + b" " * 30 + b"%c" % flag
        for name, text in (("no count", mark + b"\n"), ("count 0", mark + b"  0\n"),
                ("a comment", mark + b"  1\n" + event),
                           ("bytes", mark + b"  1\n\xff\0\n"), ("a blank line", mark + b"  1\n\n"),
                           ("long", mark + b"  1\n" + b"x" * 4097 + b"\n"),
                           ("types", mark + b"  1\n" + line),
                           ("types of S", mark + b"  1\n" + header_line(b"S    1 C1C", label)),
                           ("blank types", mark + b"  1\n" + header_line(b"", label)),
                           ("bad count", mark + b" x1\n" + event),
                           ("bad date", b"> 2008 99 99" + mark[12:] + b"  1\n" + event),
                           ("tab", b">\t" + mark[2:] + b"  1\n" + event),
                           ("time system", mark + b"  1\n" + time_line.replace(b"GPS", b"GLO"))):
            yield f"event {chr(flag)} in front: {name}", header + text + body
            yield f"event {chr(flag)} behind: {name}", obs + text
    old = b"G18  20374092.016   "
    whole = b"G18  20374092.016   107066545.4351       -955.886          49.000  \n"
    for text in (b"g18", b"x18", b" 18", b"118", b"G00", b"G 0", b"G  ", b"G 1", b"G1 ", b"G99", b"G09", b"G1x", b"G+1",
                 b"G-1", b"R18", b"E18", b"\xc718", b"S\xff8", b"G\t8", b"G18", b"[18", b"@18", b"Z18"):
        if text != b"G18":
            yield f"satellite {text}", obs.replace(old, text + old[3:])
    for text in (b"              ", b"         0.000", b"        -0.000", b"             0", b"             .",
                 b"            .0", b" -20374092.016", b" +20374092.016", b"20374092.01600", b"20374092.01601",
                 b"      20374092", b"     20374092.", b" 20374092.016x", b" 2037 4092.016", b"2.0374092016D7",
                 b"20374092016E-3", b"15000000.00000", b"14999999.99999", b"14999999.99999", b"15000000.00001",
                 b"40000000.00000", b"40000000.00001", b"39999999.99999", b"99999999999999", b"-9999999999999",
                 b" 1000000000.00", b" 1000000000.01", b"00000000000000", b"0.000000000001", b".2037409201600",
                 b"20374092.01 6 ", b"20374092.016  ", b"20374092..16  ", b"- 20374092.016", b"20374092\t     ",
                 b"20374092.0160\xb2", b"+             ", b"--1           "):
        yield f"code {text}", obs.replace(old[3:17], text)
    yield "code without its line's end", obs.replace(whole, b"G18  20374092.0\n")
    yield "satellite alone", obs.replace(whole, b"G18\n")
    yield "empty satellite line", obs.replace(whole, b"\n")
    yield "byte behind the code", obs.replace(old, old[:18] + b"x ")
    yield "tab behind the code", obs.replace(old, old[:18] + b"\t ")
    yield "twice and wrong", obs.replace(b"G09  20466294.850", b"G18  2046x294.850")
    yield "long line of S", obs.replace(b"S29 ", b"S29 " + b"x" * 4093)
    yield "bytes in the line of S", obs.replace(b"S29 ", b"S29\xff\x01\x7f")
    yield "long line of G", obs.replace(old, b"G18" + b" " * 4200)
    sixty_five = b"".join(b"G%02d  20374092.016\n" % number for number in range(1, 66))
    yield "65 satellites", header + epoch[:-2] + b"65\n" + sixty_five
    yield "65 satellites, the last one wrong", header + epoch[:-2] + b"65\n" + sixty_five.replace(b"G65  2", b"G65  x")
    yield "65 satellites, the last one again", header + epoch[:-2] + b"65\n" + sixty_five.replace(b"G65", b"G64")
    yield "64 satellites", header + epoch[:-2] + b"64\n" + sixty_five.replace(b"G65  20374092.016\n", b"")
    yield "the epoch twice", obs + body
    yield "an earlier epoch behind", obs + body.replace(b"29.999", b"28.999")
    yield "an epoch of none", obs + body[:33] + b"  0\n" + body.replace(b"29.999", b"30.999")
    yield "200,000 epochs and one", header + (epoch[:-2] + b" 0\n") * 200_001
    yield "200,000 epochs and a bad one", header + (epoch[:-2] + b" 0\n") * 200_000 + epoch[:-2].replace(b"2008",
            b"1908") + b" 0\n"


def field_of(nav, number, value):
    """The navigation file with a field of the first record changed (EQUATIONS.md, the table of fields)."""
    _, on_line, place, _ = (recheck.FIELDS + (recheck.HEALTH,))[number - 1]
    lines = nav.split(b"\n")
    at = 5 + on_line
    start = 4 + 19 * place
    lines[at] = lines[at][:start].ljust(start) + value.rjust(19) + lines[at][start + 19:]
    return b"\n".join(lines)


BOUNDS = {1: b"1D-2", 2: b"1D-8", 3: b"1D-13", 4: b"5000", 5: b"1D-7", 6: b"7", 7: b"1D-3", 8: b"2D-1", 9: b"1D-3",
        10: b"6600",
          11: b"604800", 12: b"1D-3", 13: b"7", 14: b"1D-3", 15: b"7", 16: b"5000", 17: b"7", 18: b"1D-7",
                  19: b"1D-7", 20: b"1D-5"}


def with_one_record(nav):
    """The navigation file with no more than the first record of G18, which begins it."""
    header, *records = re.split(rb"(?m)^(?=G)", nav)
    return header + records[0] + b"".join(record for record in records[1:] if not record.startswith(b"G18"))


def navigation_cases(nav):
    """Changes of the navigation file. Its first record begins in line 6."""
    header = nav[:nav.index(b"G18")]
    records = nav[len(header):]
    lines = nav.split(b"\n")
    first, second = b"\n".join(lines[5:13]) + b"\n", b"\n".join(lines[13:21]) + b"\n"
    rest = records[len(first):]
    single = with_one_record(nav)
    yield "one record of G18", single
    for number, bound in BOUNDS.items():
        mantissa, _, power = bound.partition(b"D")
        power = power and b"D" + power
        for name, text in (("bound", mantissa + power), ("above", mantissa + b".0000000001" + power),
                           ("below", b"-" + mantissa + power),
                           ("below its negative", b"-" + mantissa + b".0000000001" + power),
                           ("blank", b""), ("huge", b"1D99"), ("tiny", b"1D-99"), ("minus tiny", b"-1D-99")):
            yield f"field {number} {name}", field_of(single, number, text)
    for text in (b"5000", b"4999.9999999999", b"5000.0000000001", b"6599.9999999999"):
        yield f"root of the axis {text}", field_of(single, 10, text)
    for text in (b"0", b"604799", b"604799.9999999999", b"604799.9999999999999", b"604799.99999999999D0",
            b".99999999999999999D-9", b"1D-13", b"107999.99999999999",
                 b"108000.0000000001", b"302400", b"0.1080D+06", b"108000.0000000000001"):
        yield f"toe {text}", field_of(single, 11, text)
    for text in (b"1", b"", b"0", b"-0", b"0D99", b"63", b"1D-99", b".", b"0.000000000000D+00", b"x"):
        yield f"health {text}", field_of(single, 21, text)
        yield f"health {text}, with a second record", field_of(nav, 21, text)
    for text in (b".1742D-03", b"-.1742d-03", b"-.1742e-3", b"-.1742E-003", b"-.1742D", b"-.1742D+", b"-.1742 D-03",
                 b"-.1742D -3", b"-.1742D- 3", b"-.1742D3-", b"-.17.42D-03", b"+-.1742D-03", b"+.1742D-03", b"-1742D-7",
                 b"-1742.D-7", b"-.D-03", b"D-03", b"-.1742F-03", b"0.00000000000000000", b"000000000000000000",
                 b"0000000000000000000", b"-00000000000000000", b".000000000000000000", b"-.1742-03", b"-.17 42",
                 b"1_0D-5", b"-.1742D-3\t", b"nan", b"0x1", b"-.1742D--3", b"1D+99", b"1D-99", b"0.00017420D+00", b"1e",
                 b"-1.742E-4", b"00000000001.742D-4", b"0.0000000000000001"):
        yield f"af0 {text}", field_of(single, 1, text)
    date = b"2008 05 26 06 00 00"
    for text in (b"2008 05 26 05 59 59", b"2008 05 26 06 00 60", b"2008 05 26 06 60 00", b"2008 05 26 24 00 00",
                 b"2008 13 26 06 00 00", b"2008 05 32 06 00 00", b"2008 05 26 06 00   ", b"2008 05 26 06 00  0",
                 b"2008  5 26  6  0  0", b"2008 5  26 6  0  0 ", b"2008 05 26 06 00 .0", b"  08 05 26 06 00 00",
                 b"1980 01 06 00 00 00", b"1980 01 05 00 00 00", b"2099 12 31 23 59 59", b"2100 01 01 00 00 00",
                 b"2008 05 25 00 00 00", b"2008 05 24 23 59 59", b"2008 05 28 18 00 00", b"2008 05 28 17 59 59",
                 b"2008 05 28 18 00 01", b"2008 05 22 18 00 00", b"2008 05 22 17 59 59", b"2008 05 22 18 00 01",
                 b"2008x05x26x06x00x00", b"2008 05 26 06 00 -1", b"2008 05 26 06 00 +1", b"2008\t05 26 06 00 00"):
        yield f"toc {text}", single.replace(b"G18 " + date, b"G18 " + text)
    for text in (b"G 9", b"G9 ", b"G00", b"G  ", b"G1x", b"G99", b"g18", b"R18", b" 18", b"\t18", b"x18", b"\xff18",
            b"\x0118", b"118", b"G\t8", b"S99"):
        yield f"satellite {text}", single.replace(b"G18", text, 1)
        yield f"satellite {text} of two records", nav.replace(b"G18", text, 1)
    yield "a column behind the satellite", single.replace(b"G18 2008", b"G18x2008", 1)
    yield "LF in front of the records", header + b"\n \n\t\n" + records
    yield "text in front of the records", header + b"     x\n" + records
    yield "a record of R", header + b"R18 \xff\n     x\n    y\n" + records
    yield "blank lines between records", header + first + b"\n" + b"     1.0D+00\n" + rest
    yield "tab line between records", header + first + b"\tx\xff\n" + rest
    yield "no records", header
    yield "no LF at the end", nav[:-1]
    yield "no LF but a CR at the end", nav[:-1] + b"\r"
    yield "byte 26 at the end", nav + b"\x1a\n"
    yield "CR LF", nav.replace(b"\n", b"\r\n")
    for at in range(1, 8):
        block = first.split(b"\n")
        for name, text in (("removed", None), ("blank", b""), ("blanks", b"   "), ("tab", b"\t" + block[at][1:]),
                ("G", b"G" + block[at][1:]),
                           ("G and a byte", b"G\xff" + block[at][2:]), ("R", b"R" + block[at][1:]),
                           ("R and a byte", b"R\xff" + block[at][2:]),
                           ("a byte", block[at] + b"\x80"), ("tab behind", block[at] + b"\t"),
                           ("x behind", block[at].ljust(80) + b"x"),
                           ("x in column 2", b" x" + block[at][2:]), ("long", block[at].ljust(4097)),
                           ("G and long", b"G".ljust(4097)), ("R and long", b"R".ljust(4097))):
            changed = block[:at] + ([] if text is None else [text]) + block[at + 1:]
            yield f"line {at} of the record: {name}", header + b"\n".join(changed) + rest
            if name in ("removed", "blank", "blanks", "G", "R"):
                last = b"\n".join(changed[:at + (text is not None)]) + b"\n"
                yield f"line {at} of the last record: {name}", nav + last
                yield f"line {at} of the last record: {name}, and blanks", nav + last + b" \n\n"
    yield "the last line blank", nav + b"\n".join(first.split(b"\n")[:7]) + b"\n\n"
    yield "long blank line at the end", nav + b" " * 5000
    yield "long line of R", header + b"R" + b"x" * 4096 + b"\n" + records
    yield "long line behind a record of R", header + b"R\n " + b"x" * 4096 + b"\n" + records
    yield "line 6 unread fields", single.replace(b" .200000000000D+01  .000000000000D+00",
            b" xyz             ~ .000000000000D+00", 1)
    yield "second record swapped", header + second + first + records[len(first) + len(second):]
    changed = first.replace(b"-.174204818904D-03", b"-.174204818905D-03")
    for name, text in (("the same again", first + first), ("another one behind", first + changed),
            ("another one in front", changed + first),
                       ("one with toe 7200 s later", first + first.replace(b".108000000000D+06", b".115200000000D+06")),
                       ("one with toe 2 ms earlier, the same age",
                       first + first.replace(b" .108000000000D+06", b" 107999.9980000000 ")),
                       ("one with toe 2 ms earlier in front",
                       first.replace(b" .108000000000D+06", b" 107999.9980000000 ") + first),
                       ("one with toe 2 ms earlier and outside behind",
                       first + field_of(header + first.replace(b" .108000000000D+06", b" 107999.9980000000 "), 4,
                               b"9D9")[len(header):]),
                       ("an outside one alone", field_of(header + first, 4, b"9D9")[len(header):]),
                       ("two outside ones of one age", field_of(header + first, 4,
                       b"9D9")[len(header):] + field_of(header + first, 9, b"9D9")[len(header):]),
                       ("an outside one and an older one", field_of(header + first, 4,
                       b"9D9")[len(header):] + first.replace(b".108000000000D+06", b".110000000000D+06")),
                       ("an ill one and an older one", field_of(header + first, 21,
                       b"1")[len(header):] + first.replace(b".108000000000D+06", b".110000000000D+06")),
                       ("an ill one and an outside one", field_of(header + first, 21,
                       b"1")[len(header):] + field_of(header + first, 4, b"9D9")[len(header):]),
                       ("toe outside and an outside one", field_of(header + first, 11,
                       b"604800")[len(header):] + field_of(header + first, 9, b"9D9")[len(header):]),
                       ("an ill one, toe outside", field_of(field_of(header + first, 21, b"1"), 11,
                       b"604800")[len(header):]),
                       ("two fields outside", field_of(field_of(header + first, 9, b"1"), 4, b"9D9")[len(header):])):
        yield f"G18: {name}", single.replace(first, text)
    kind = lines[0]
    for text in (b"O", b"n", b" "):
        yield f"type {text}", nav.replace(kind, kind[:20] + text + kind[21:])
    for text in (b"G", b" ", b"E", b"\t"):
        yield f"system {text}", nav.replace(kind, kind[:40] + text + kind[41:])
    yield "version 3.06", nav.replace(b"3.04", b"3.06", 1)
    yield "no end of header", nav.replace(b"END OF HEADER", b"END OF HEADEr")
    yield "header label of observations", nav.replace(END, header_line(b"G    0", b"SYS / # / OBS TYPES") + END)
    yield "empty", b""


def settings_cases(settings):
    """Changes of the settings."""
    plain = b"\n".join(line for line in settings.split(b"\n") if line and not line.startswith(b"#")) + b"\n"
    yield "without comments", plain
    yield "CR LF", plain.replace(b"\n", b"\r\n")
    yield "CR alone", plain.replace(b"\n", b"\r", 1)
    yield "BOM", b"\xef\xbb\xbf" + plain
    yield "not UTF-8", plain + b"# \xff\n"
    yield "surrogate", plain + b"# \xed\xa0\x80\n"
    yield "UTF-8 in a comment", plain + "# é\n".encode()
    yield "byte 0 in a comment", plain + b"# \0\n"
    yield "byte 1 in a comment", plain + b"# \1\n"
    yield "byte 127 in a comment", plain + b"# \x7f\n"
    yield "C1 control in a comment", plain + b"# \xc2\x85\n"
    yield "tab in a comment", plain + b"#\t\n"
    yield "empty", b""
    yield "65536 bytes", plain + b"#" * (65536 - len(plain))
    yield "65537 bytes", plain + b"#" * (65537 - len(plain))
    values = dict(re.findall(rb"(?m)^(\w+) = (.*)$", plain))
    kinds = (b"1", b"-1", b"0", b"1.0", b"1.5", b"true", b'"x"', b"[1]", b"[1, 2]", b"[1, 2, 3]", b"[1, 2, 3, 4]",
             b"[]", b"{}", b"{a = 1}", b"[true, 1, 2]", b"[1.0, 2, 3]", b'["C1C"]', b'["C1C", "C2W"]', b'["C1C", 1]',
             b"1979-05-27", b"07:32:00", b"inf", b"nan", b"9223372036854775807", b"9223372036854775808",
             b"-9223372036854775808", b"-9223372036854775809", b'"header"', b"'header'", b'"single"', b'"dual"',
             b"0x10", b"1_0", b"+5", b"-0", b"+0", b"01", b"1e3", b'""', b"[2, 1]", b"[-5, 5]", b"[5, 5]",
             b"[[1], [2]]", b'["C1C", ["C2W"]]', b"[1000001, 1000002]", b"[-1000001, 0]", b"[1000000, 1000000]",
             b"[-1000000, 1000000]", b'["x", true, "y"]', b"[1, 2,]", b"[\n1, # a\n2\n,3]")
    for key, value in values.items():
        yield f"{key} removed", plain.replace(key + b" = " + value + b"\n", b"")
        for kind in kinds:
            new = plain.replace(key + b" = " + value, key + b" = " + kind)
            if new != plain:
                yield f"{key} = {kind}", new
    for key in b"pairs", b"renew":
        for kind in (*kinds, b"false", b"True", b"[true]"):
            yield f"{key} = {kind}", plain.replace(b"[search]", b"[search]\n%s = %s" % (key, kind))
    yield from zenith_settings(plain, kinds)
    yield from vertical_settings(plain, kinds)
    yield from motion_settings(plain, kinds)
    for key, texts in ((b"half", (b"100000000", b"100000001", b"[1, 1, 100000000]", b"[1, 0, 1]", b"[2, 30000, 4]")),
            (b"outliers", (b"8", b"9")),
                       (b"bisections", (b"200001",)), (b"width", (b"10000000", b"10000001")),
                       (b"max_age", (b"14400", b"14401", b"30", b"31")),
                       (b"centre", (b"[8500000000, 1, 1]", b"[8500000001, 1, 1]", b"[-8500000000, 1, 1]",
                       b"[1, 1, -8500000001]", b'"Header"', b'"header "')),
                       (b"codes", (b'["C1W"]', b'["C2W"]', b'["C1c"]', b'["C1"]', b'["C1CC"]', b'["C1C\\n"]',
                       b'["C1\\u0043"]', b'["C1\\u00C9"]', b'["C1C,C2W"]', b'["C1X"]'))):
        for text in texts:
            yield f"{key} = {text}", plain.replace(key + b" = " + values[key], key + b" = " + text)
    for table in (b"search", b"signal", b"bounds", b"satellite"):
        yield f"no {table}", re.sub(rb"\[%s\]\n(\w+ = .*\n)*" % table, b"", plain)
        for kind in (b"1", b"[]", b'"x"', b"true", b"[{}]", b"{}"):
            yield f"{table} = {kind}", b"%s = %s\n" % (table, kind) + re.sub(rb"\[%s\]\n(\w+ = .*\n)*" % table, b"",
                    plain)
        yield f"two of {table}", plain + b"[%s]\n" % table
        yield f"[[{table}]]", plain.replace(b"[%s]" % table, b"[[%s]]" % table)
        yield f"unknown in {table}", plain.replace(b"[%s]" % table, b"[%s]\nzz = 1" % table)
        yield f"table unknown in {table}", plain.replace(b"[%s]" % table, b"[%s.zz]\na = 1\n[%s]" % (table, table))
        yield f"{table} in other words", plain.replace(b"[%s]" % table, b"[ '%s' ] # x" % table)
    for name in (b"a", b"zz", b'""', b'"a b"', b'"a\\u0001b"', b'"a\\u007fb"', b'"a\\u0085b"', b'"a\\u00adb"',
            b'"a\\u2028b"', b'"a\\nb"', b"'" + b"x" * 63 + b"'", b"x" * 64, b"x" * 65,
                 b"'" + "é".encode() * 32 + b"'", b"'" + b"x" + "é".encode() * 32 + b"'",
                 b"'" + b"xx" + "é".encode() * 31 + "😀".encode() + b"'", b"search2", b"Search", b"'search.half'",
                 b"a.b.c",
                 b'"\xf0\x9f\x98\x80"', b'"\\U0001F600"', b'"\\uD800"', b"\xc3\xa9", b'"\\e"', b'"\\x41"', b'"a\\tb"',
                 b"1", b"-", b"_", b"satellite2", b"bounds ."):
        yield f"root name {name}", name + b" = 1\n" + plain
        yield f"satellite name {name}", plain + name + b" = [1, 2]\n"
        yield f"search name {name}", plain.replace(b"[search]", b"[search]\n" + name + b" = 1")
    for name in (b"G00", b"G1", b"G100", b"g05", b"G99", b"G01", b"'G07'", b"G0", b"R05", b"G05x", b" G06 ", b"G06.x",
            '"G0６"'.encode(), '"G٠٦"'.encode(), b'"G06\\n"'):
        yield f"satellite {name}", plain + name + b" = [-1, 1]\n"
        yield f"satellite {name} of another kind", plain + name + b' = [1, "x"]\n'
        yield f"satellite {name} outside", plain + name + b" = [2, 1]\n"
    yield "two unknown names", b"zz = 1\nya = 1\n" + plain
    yield "two long unknown names", b"x" * 70 + b"b = 1\n" + b"x" * 70 + b"a = 1\n" + plain
    yield "names by their bytes", b"'search.a' = 1\nsearchz = 1\n" + plain.replace(b"[search]", b"[search]\nzz = 1")
    yield "names by their bytes, controls", b'"a\\u0001" = 1\n"a!" = 1\n"a=" = 1\n' + plain
    yield "names by their bytes, tables", plain.replace(b"[bounds]", b"[bounds]\nzz = 1").replace(b"[search]",
            b"[search]\nzz = 1") + b"A = 1\n"
    yield "unknown with a fault below", plain + b"[other]\na = [1, 2, {b = 99999999999999999999}]\n"
    yield "a whole number beyond 64 bits, unread", plain + b"[other]\na = 9223372036854775808\n"
    yield "a hexadecimal number beyond 64 bits", plain + b"[other]\na = 0x8000000000000000\n"
    yield "a hexadecimal number of 63 bits", plain + b"[other]\na = 0x7fffffffffffffff\n"
    yield "a number of 5000 digits", plain + b"[other]\na = " + b"9" * 5000 + b"\n"
    yield "a number of zeros", plain + b"[other]\na = 0x" + b"0" * 5000 + b"1\n"
    for text in (b"a = {b = 1,}", b"a = {\nb = 1\n}", b"a = {b = 1, # x\nc = 2}", b'a = "\\e"', b'a = "\\x41"',
            b'a = "\\xe9"', b"a = 07:32", b"a = 1979-05-27T07:32", b"a = 1979-05-27 07:32Z",
                 b"a = 1979-05-27T07:32:00.1234567890Z", b"a = 1979-02-29", b"a = 1979-05-27T24:00:00",
                 b"a = 1979-05-27T07:32:60Z", b"a = 1979-05-27T07:32:61Z", b"a = 1979-05-27T07:32:00+24:00",
                 b"a = 0000-01-01",
                 b"a = 1e", b"a = .5", b"a = 5.", b"a = 1__0", b"a = 0b102", b"a = 0o8", b"a = +0x1", b"a = 1e400",
                 b"a = +nan", b"a = 00", b"a = 1.e5", b"a = 0e0", b"a = '''\nx'''", b'a = """x\\\n  y"""',
                 b'a = """""x"""""', b"a = 'x\ny'", b'a = "\\z"', b"a = [1, 'x', {}]", b"a = [,]", b"a = [1,,2]",
                 b"a.b = 1\na.c = 2", b"a = 1\na = 2", b"a.b = 1\na = 2", b"a = {b.c = 1, b.d = 2}",
                 b"a = {b = 1, b = 2}",
                 b"[a]\n[a]", b"[a.b]\n[a]\n[a.c]", b"[[a]]\n[a.b]\n[[a]]\n[a.b]", b"a = []\n[[a]]",
                 b"[a]\nb.c = 1\n[a.b]", b"[a]\nb = {c = 1}\n[a.b]", b"= 1", b"a =", b"a", b"a = 1 b = 2", b"[a",
                 b"[]", b"[a.]", b'"a" = 1\na = 2',
                 b"a = \"\xe2\x82\xac\"", b"a = tru", b"a = TRUE", b"a = Inf", b"\xe2\x82\xac = 1",
                 b"a = 1 # \xe2\x82\xac", b"a = [\t1\t]", b"a\t=\t1", b"\xc2\xa0a = 1", b"a = 1\x0c", b"[a]]",
                 b"[[a]", b"a = 1\r", b"a = {}\na.b = 1",
                 b"a = '\x01'", b"a = '\x7f'", b"a = '\t'", b'a = "\t"', b'a = """\r\n"""', b"a = '''\r'''",
                 b'a = "\\u12"', b'a = "\\U00110000"', b"\"\"\"a\"\"\" = 1", b"a = " + b"[" * 100 + b"]" * 100,
                 b"a = " + b"[" * 3000 + b"]" * 3000,
                 b"a = " + b"{a = " * 100 + b"1" + b"}" * 100, b"." .join([b"a"] * 500) + b" = 1"):
        yield f"TOML {text[:60]}", text + b"\n" + plain
    for levels in (80, 81):
        for name, text in (("lists", b"a = " + b"[" * levels + b"]" * levels),
                           ("inline tables", b"a = " + b"{a = " * levels + b"1" + b"}" * levels),
                           ("both", b"a = " + b"[{a = " * 40 + b"[" * (levels - 80) + b"]" * (levels - 80)
                            + b"1" * (levels == 80) + b"}]" * 40),
                           ("parts of a key", b".".join([b"a"] * levels) + b" = 1"),
                           ("parts of a key in an inline table", b"a = {" + b".".join([b"a"] * levels) + b" = 1}"),
                           ("parts of a header", b"[" + b".".join([b"a"] * levels) + b"]"),
                           ("parts of a header and a key", b"[" + b".".join([b"a"] * 40) + b"]\n"
                            + b".".join([b"a"] * 41) + b" = 1"),
                           ("parts of a key and lists", b".".join([b"a"] * levels) + b" = [[1]]")):
            yield f"{levels} {name}", plain + b"[z]\n" * (b"=" in text) + text + b"\n"
    for text in (b"1.7976931348623158e308", b"1.7976931348623159e308", b"-1e309", b"1e308", b"0e999", b"1e-400",
                 b"1_0e3_07", b"1" + b"0" * 400 + b".0", b'"\\UFFFFFFFF"', b'"\\U0010FFFF"', b'"\\uE000"',
                 b'"\\uDFFF"'):
        yield f"TOML value {text[:30]}", b"a = " + text + b"\n" + plain
    for word in (b"search", b"signal"):
        yield f"dotted keys of {word}", b"".join(
            word + b"." + line + b"\n" for line in re.search(rb"\[%s\]\n((\w+ = .*\n)*)" % word,
                    plain).group(1).split(b"\n")[:-1]) + re.sub(
                rb"\[%s\]\n(\w+ = .*\n)*" % word, b"", plain)


def mapped(settings, value=b"[2000, 2500]"):
    """The settings with a `zenith` behind their `troposphere`."""
    return re.sub(rb"(?m)^troposphere = .*\n", lambda line: line.group() + b"zenith = " + value + b"\n", settings)


def zenith_settings(plain, kinds):
    """Changes of the settings with the key `zenith`, which may be absent."""
    yield "zenith absent, but for a comment", mapped(plain).replace(b"zenith", b"# zenith")
    for value in (*kinds, b"[2000, 2500]", b"[0, 0]", b"[-2500, -2000]", b"[-10000, 10000]", b"[10000, 10000]",
                  b"[-10000, -10000]", b"[10000, 10001]", b"[-10001, 0]", b"[-10001, 10001]", b"[10001, 10000]",
                  b"[2500, 2000]", b"[2500, 2499]", b"[2000]", b"[2000, 2500, 3000]", b"[2000.0, 2500]",
                  b"[2000, 2500.5]", b"[2000, true]", b'["2000", 2500]', b"[[2000, 2500]]", b"[2_000, +2_500]",
                  b"[9223372036854775807, 0]", b"{ lo = 2000, hi = 2500 }"):
        yield f"zenith = {value}", mapped(plain, value)
    yield "zenith in front of the others", plain.replace(b"[bounds]", b"[bounds]\nzenith = [2000, 2500]")
    yield "zenith in quotes", mapped(plain).replace(b"zenith", b"'zenith'")
    yield "zenith twice", mapped(mapped(plain))
    for name in (b"Zenith", b"zenith2", b"zenit", b"zenith.lo", b"'zenith '"):
        yield f"{name} in the place of zenith", mapped(plain).replace(b"zenith", name)
    for table in (b"search", b"signal", b"satellite"):
        yield f"zenith in {table}", plain.replace(b"[%s]" % table, b"[%s]\nzenith = [2000, 2500]" % table)
    yield "zenith in the root", b"zenith = [2000, 2500]\n" + plain
    yield "bounds.zenith as a table", plain + b"[bounds.zenith]\n"
    yield "bounds.zenith as tables", plain + b"[[bounds.zenith]]\n"
    # Of two faults the one of the key that comes first in the order is told.
    for value in (b"1", b"[2500, 2000]", b"[10001, 10001]", b"[1]"):
        wrong = mapped(plain, value)
        for key in (b"receiver", b"troposphere"):
            of_key = rb"(?m)^%s = .*$" % key
            for other in (b"true", b"[2, 1]", b"[1000001, 1000001]"):
                yield f"zenith = {value}, {key} = {other}", re.sub(of_key, key + b" = " + other, wrong)
            yield f"zenith = {value}, no {key}", re.sub(of_key + rb"\n", b"", wrong)
        yield f"zenith = {value}, and a satellite's bound outside", wrong + b"G01 = [2, 1]\n"
        yield f"zenith = {value}, and a satellite's bound of another kind", wrong + b"G01 = 1\n"
        yield f"zenith = {value}, and an unknown name", b"a = 1\n" + wrong
    for name in (b"receiver", b"troposphere"):
        yield f"zenith, no {name}", re.sub(rb"(?m)^%s = .*\n" % name, b"", mapped(plain))
    # A satellite's own bound, and the four summed ones, keep their range.
    yield "zenith, and a satellite's bound of 1 km", mapped(plain) + b"G01 = [-1000000, 1000000]\n"
    yield "zenith, and a satellite's bound of more", mapped(plain) + b"G01 = [-1000001, 1000000]\n"


def shell_mapped(settings, value=b"[0, 35000]"):
    """The settings with a `vertical` behind their `troposphere`."""
    return re.sub(rb"(?m)^troposphere = .*\n", lambda line: line.group() + b"vertical = " + value + b"\n", settings)


def vertical_settings(plain, kinds):
    """Changes of the settings with the key `vertical`, which may be absent too, and with both keys."""
    for value in (*kinds, b"[0, 35000]", b"[-100000, 100000]", b"[100000, 100001]", b"[-100001, 0]", b"[2, 1]", b"[1]",
                  b"[0.0, 35000]"):
        yield f"vertical = {value}", shell_mapped(plain, value)
        yield f"vertical = {value}, and zenith", shell_mapped(mapped(plain), value)
        yield f"vertical = {value}, and zenith outside", mapped(shell_mapped(plain, value), b"[2, 1]")
        yield f"vertical = {value}, and a satellite's bound outside", shell_mapped(plain, value) + b"G01 = [2, 1]\n"
    for name in (b"Vertical", b"verticals", b"vertica", b"vertical.lo"):
        yield f"{name} in the place of vertical", shell_mapped(plain).replace(b"vertical", name)
    yield "vertical in the root", b"vertical = [0, 35000]\n" + plain


def motion_settings(plain, kinds):
    """Changes of the settings with the table `motion`, which may be absent or without its key."""
    yield "motion without a key", plain + b"[motion]\n"
    for value in (*kinds, b"20000", b"1000000", b"1000001", b"-0", b"1_000", b"0x10", b"9223372036854775807", b"{}"):
        yield f"speed = {value}", plain + b"[motion]\nspeed = " + value + b"\n"
        yield f"restart = {value}", plain + b"[motion]\nspeed = 20000\nrestart = " + value + b"\n"
        yield f"restart = {value}, and no speed", plain + b"[motion]\nrestart = " + value + b"\n"
    for text in (b"motion = 20000", b"motion = []", b"motion = {}", b"motion = {speed = 20000}", b"speed = 20000",
                 b"motion.speed = 20000", b"motion = 'speed'"):
        yield f"{text} in the root", text + b"\n" + plain
    for text in (b"[[motion]]\nspeed = 20000\n", b"[motion.speed]\n", b"[Motion]\nspeed = 20000\n",
                 b"[motion]\nSpeed = 20000\n", b"[motion]\nspeed = 20000\nheight = 1\n", b"[motion]\n[motion]\n"):
        yield f"{text} at the end", plain + text
    # Of two faults the one of the key that comes first in the order is told.
    wrong = plain + b"[motion]\nspeed = true\n"
    yield "speed of another kind, zenith outside", mapped(wrong, b"[2500, 2000]")
    yield "speed of another kind, no troposphere", re.sub(rb"(?m)^troposphere = .*\n", b"", wrong)
    yield "speed of another kind, a satellite's bound of another kind", plain + b"G01 = 1\n[motion]\nspeed = 1.0\n"
    yield "speed of another kind, an unknown name", b"a = 1\n" + wrong


def mixed_cases(contents):
    """Changes of more than one file."""
    obs, nav, settings = contents
    yield from low_places(contents)
    dual = settings.replace(b'"single"', b'"dual"').replace(b'["C1C"]', b'["C1C", "C2W"]')
    lines = obs.replace(b"G    4 C1C L1C D1C S1C", b"G    4 C1C C2W D1C S1C").split(b"\n")
    for name, second in (("equal codes", None), ("codes 3 m apart", 3000), ("4 numbers below 15,000 km", "low"),
            ("above 40,000 km", "high"), ("one code missing", "")):
        changed = []
        for line in lines:
            if line.startswith(b"G") and line[3:7].strip() and b"SYS" not in line and b"." in line:
                first = int(line[4:17].replace(b".", b""))
                if second in ("low", "high") and line.startswith(b"G18"):
                    first = 15_000_000_001 if second == "low" else 39_999_999_999
                other = first if second in (None, "") else first + 3000 if second != "high" else first - 3000
                code = b"%14.3f" % (other / 1000) if second != "" or not line.startswith(b"G18") else b" " * 14
                line = line[:3] + b"%14.3f  " % (first / 1000) + code + line[33:]
            changed.append(line)
        yield f"dual: {name}", [b"\n".join(changed), nav, dual]
    yield "dual: no second code", [obs, nav, dual]
    for number in (31, 30, 29, 7230, 7231, 7229):
        yield f"max_age {number}", [obs, nav, settings.replace(b"max_age = 7200", b"max_age = %d" % number)]
    for second, max_age in ((b"30.0000000", 7230), (b"29.9999999", 7230), (b"30.0000001", 7230), (b"30.0000000", 30),
            (b"29.9999999", 30)):
        yield f"second {second}, max_age {max_age}", [obs.replace(b"29.9990000", second), nav,
                settings.replace(b"max_age = 7200", b"max_age = %d" % max_age)]
    # The turn of the week: records whose toe is in the week behind or before that of toc.
    for toc, toe, time in ((b"2008 05 31 23 59 44", b"  .000000000000D+00", b"2008 06 01 00 00 29.9990000"),
            (b"2008 06 01 00 00 00", b"  .604784000000D+06", b"2008 05 31 23 59 29.9990000"),
                           (b"2008 06 01 00 00 00", b"  .302400000000D+06", b"2008 06 04 12 00 00.0000000"),
                           (b"2008 06 01 00 00 00", b"  .302400000000D+06", b"2008 05 28 12 00 00.0000000"),
                           (b"2008 06 01 00 00 00", b" .3023999999999D+06", b"2008 06 04 12 00 00.0000000"),
                           (b"2008 06 01 00 00 00", b" .3024000000001D+06", b"2008 05 28 12 00 00.0000000"),
                           (b"1980 01 06 00 00 00", b"  .604784000000D+06", b"1980 01 06 00 00 00.0000000"),
                           (b"2099 12 31 23 59 59", b"  .431999000000D+06", b"2099 12 31 23 59 59.9999999"),
                           (b"1980 01 06 00 00 00", b"  .000000000000D+00", b"1980 01 06 00 00 00.0000000")):
        changed = nav.replace(b"2008 05 26 06 00 00", toc).replace(b"   .108000000000D+06", b" " + toe)
        changed = changed.replace(b"\n      .108000000000D+06", b"\n    " + toe)
        yield f"toc {toc}, toe {toe}, epoch {time}", [obs.replace(b"2008 05 26 05 59 29.9990000  0", time + b"  0"),
                changed, settings]
    for half in (b"1", b"[1, 100000000, 1]", b"100000000", b"[100000000, 1, 1]"):
        yield f"half = {half}", [obs, nav, settings.replace(b"half = 200000", b"half = " + half)]
    for centre in (b"[8500000000, 8500000000, 8500000000]", b"[-8500000000, 8500000000, -8500000000]", b"[0, 0, 0]"):
        yield f"centre = {centre}", [obs, nav, settings.replace(b'"header"', centre).replace(b"half = 200000",
                b"half = 100000000")]


def low_places(contents):
    """Search boxes near the origin and at 6,000 km from it, where a satellite is skipped for 7 or isn't."""
    obs, nav, settings = contents
    half = 200_000  # mm, of the example
    at = 6_000_000_000  # mm
    centres = [("the origin", (0, 0, 0)), ("a face at the origin", (half, 0, 0)), ("400 km up", (400_000_000, 0, 0))]
    for inner in (0, 1, -1):
        by = f"{inner} mm nearer than 6,000 km"
        for axis in range(3):
            for sign in (1, -1):
                centre = [0, 0, 0]
                centre[axis] = sign * (at + half - inner)
                centres.append((f"axis {axis}, sign {sign}, {by}", centre))
        # The nearest points are a corner with the parts 0.6 and 0.8, and one with 2/3, 1/3 and 2/3.
        centres.append((f"an edge, {by}", (at * 3 // 5 + half - inner, -(at * 4 // 5 + half), 0)))
        centres.append((f"a corner, {by}", (at * 2 // 3 + half, -(at // 3 + half), at * 2 // 3 + half - inner)))
        # A side that holds zero, if only at its end, adds nothing.
        centres.append((f"zero at an end, {by}", (half, at + half - inner, -half)))
        centres.append((f"zero a mm beyond an end, {by}", (half + 1, at + half - inner, -half)))
    for name, centre in centres:
        there = settings.replace(b'"header"', str(list(centre)).encode())
        yield f"zenith, {name}", [obs, nav, mapped(there)]
        if max(map(abs, centre)) < at // 2:
            yield f"zenith [0, 0], {name}", [obs, nav, mapped(there, b"[0, 0]")]
            yield f"no zenith, {name}", [obs, nav, there]
            yield f"vertical [0, 0], {name}", [obs, nav, shell_mapped(there, b"[0, 0]")]
    # The tests of a satellite that come before this one.
    there = mapped(settings.replace(b'"header"', b"[0, 0, 0]"))
    single = with_one_record(nav)
    for name, files in (("no code", [obs.replace(b"G18  20374092.016", b"G18              "), nav, there]),
                        ("a range outside", [obs.replace(b"G18  20374092.016", b"G18  14374092.016"), nav, there]),
                        ("no record", [obs, nav.replace(b"G18 2008", b"G19 2008"), there]),
                        ("an ill record", [obs, field_of(single, 21, b"1"), there]),
                        ("old records", [obs, nav, there.replace(b"max_age = 7200", b"max_age = 1")]),
                        ("a field outside", [obs, field_of(single, 4, b"9D9"), there])):
        yield f"zenith, the origin, {name}", files
    header = settings.replace(b"half = 200000", b"half = 100000000")
    for value in (b"[2000, 2500]", b"[-10000, 10000]", b"[-10000, -10000]", b"[0, 0]"):
        yield f"zenith = {value}, half = 100 km", [obs, nav, mapped(header, value)]
        yield f"vertical = {value}, half = 100 km", [obs, nav, shell_mapped(header, value)]
        yield f"both = {value}, half = 100 km", [obs, nav, shell_mapped(mapped(header, value), value)]
        yield f"zenith = {value}, half = 1 mm", [obs, nav, mapped(header.replace(b"100000000", b"1"), value)]
