#!/usr/bin/env python3
"""Histories to replay, with the lines that document 01 asks of each.

The histories are built from 01's rules for frames and fields; the expected lines are written out
by hand. `cases.py DIR` writes NAME.history and NAME.expected for each case into DIR.
"""
import pathlib
import sys


def check(content):
    """The 16-bit check of 01: polynomial 1021, start ffff, high bit first."""
    register = 0xFFFF
    for byte in content:
        register ^= byte << 8
        for _ in range(8):
            register = (register << 1) ^ (0x1021 if register & 0x8000 else 0)
            register &= 0xFFFF
    return register.to_bytes(2, "big")


def framed(content):
    escapes = {0x7D: b"\x7d\x5d", 0x7E: b"\x7d\x5e"}
    return b"\x7e" + b"".join(escapes.get(b, bytes([b])) for b in content) + b"\x7e"


def frame(kind, sequence, payload=b""):
    content = bytes([kind, sequence]) + payload
    return framed(content + check(content))


def item(kind, value):
    return bytes([kind, len(value)]) + value


def packet(*items, opcode=3):
    return bytes([1, opcode, 0, 0]) + b"".join(items)


def field(tag, value=b""):
    return bytes([tag]) + len(value).to_bytes(2, "big") + value


def names(*list_of_names):
    return b"".join(field(1, name) for name in list_of_names)


def received(data):
    return field(2, data)


TICK = field(3)
H1 = item(1, b"h1")
CENTS = item(0x16, b"\x00\x00\x0d\x7a")
EOF = item(0x14, b"")
EMPTY = item(5, b"")
UPDATE = packet(H1, CENTS)
REPLY = "reply 7e02007b6d7e"
REPLY_1 = "reply 7e02016b4c7e"
REPLY_5 = "reply 7e02052bc87e"


def integer(value, size):
    return item(2, value.to_bytes(size, "big", signed=True))


def counts(new=0, again=0, heard=0, unread=0, refused=(0, 0, 0, 0, 0, 0)):
    return [
        f"new {new} again {again} heard {heard} unread {unread}",
        "refused " + " ".join(str(count) for count in refused),
    ]


def refused_frame(data, number):
    refused = [0] * 6
    refused[number - 1] = 1
    return names(b"h1") + received(data), ["h1 never"] + counts(refused=refused)


def damaged(sent):
    """The frame with one bit of its check changed."""
    return sent[:-2] + bytes([sent[-2] ^ 1]) + sent[-1:]


def replaced(sent, old, new):
    """The frame with these bytes, which stand in it once, damaged to as many others."""
    assert sent.count(old) == 1 and len(old) == len(new)
    return sent.replace(old, new)


def end_mark(payload):
    history = names(b"h1") + received(frame(1, 0, payload))
    return history, [REPLY, "h1 never"] + counts(new=1)


def refused_packet(payload):
    history = names(b"h1") + received(frame(1, 0, payload))
    return history, [REPLY, "h1 never"] + counts(new=1, unread=1)


def shown(value_item, value):
    history = names(b"h1") + received(frame(1, 0, packet(H1, value_item)))
    return history, [REPLY, f"h1 current {value} 0"] + counts(new=1)


def broken(history, *before):
    return history, list(before) + ["refused 15"]


def numbered(count):
    return names(*(b"hive%d" % number for number in range(1, count + 1)))


def updated(*numbers):
    """An update of each of these hives, whose value is its number."""
    return b"".join(
        received(frame(1, 0, packet(item(1, b"hive%d" % number), integer(number, 1))))
        for number in numbers)


def cases():
    case_6 = bytes.fromhex("7e01000103000001026831160400000d7a1aa47e")
    again = frame(1, 1, UPDATE)
    yield "case_6", names(b"h1", b"h2") + received(case_6) + TICK, [
        REPLY, "h1 current 3450 1", "h2 never"] + counts(new=1)
    yield "empty", b"", counts()
    yield "empty_piece", names(b"h1") + received(b""), ["h1 never"] + counts()
    yield "ticks_alone", TICK + TICK, counts()

    yield "refusal_1", *refused_frame(b"\x7e\x01\x7d\x41\x7e", 1)
    yield "refusal_1_at_the_flag", *refused_frame(b"\x7e\x01\x00\x00\x00\x7d\x7e", 1)
    yield "refusal_2", *refused_frame(frame(1, 0, bytes(384)), 2)
    yield "refusal_3", *refused_frame(b"\x7e\x01\x02\x03\x7e", 3)
    yield "refusal_4", *refused_frame(case_6[:-2] + b"\xa5\x7e", 4)
    yield "refusal_5", *refused_frame(frame(3, 0, UPDATE), 5)
    yield "refusal_6", *refused_frame(frame(2, 0, b"\x00"), 6)
    yield "refusal_1_before_2", *refused_frame(b"\x7e\x7d\x41" + bytes(388) + b"\x7e", 1)
    yield "refusal_2_before_1", *refused_frame(b"\x7e" + bytes(388) + b"\x7d\x41\x7e", 2)
    yield "refusal_3_before_5", *refused_frame(b"\x7e\x03\x00\x7e", 3)
    yield "refusal_4_before_5", *refused_frame(damaged(frame(3, 0, UPDATE)), 4)
    yield "refusal_4_before_6", *refused_frame(damaged(frame(2, 0, b"\x00")), 4)

    yield "refusal_9", *refused_packet(b"\x01\x03\x00")
    yield "refusal_10", *refused_packet(packet(b"\x01\x05h"))
    yield "refusal_11", *refused_packet(packet(H1, CENTS, opcode=0x0B))
    yield "refusal_12", *refused_packet(packet(CENTS))
    yield "refusal_13", *refused_packet(packet(H1, item(2, b"\x00\x00\x01")))
    yield "refusal_14", *refused_packet(packet(item(1, b"h9"), CENTS))
    yield "longest_payload", *refused_packet(bytes(383))
    yield "items_189", *refused_packet(packet(*[EMPTY] * 189))
    yield "items_before_the_name", names(b"h1") + received(frame(1, 0, packet(*[EMPTY] * 184, H1, CENTS))), [
        REPLY, "h1 current 3450 0"] + counts(new=1)
    yield "last_of_many_items_cut", *refused_packet(packet(*[EMPTY] * 184, H1, CENTS)[:-1])
    yield "end_mark", *end_mark(packet(EOF))
    yield "two_eof_items", *end_mark(packet(EOF, EOF))
    yield "eof_beside_a_value", *end_mark(packet(CENTS, EOF))
    yield "eof_behind_the_name", *refused_packet(packet(H1, EOF))

    yield "repeated", names(b"h1") + received(again) + TICK + received(again), [
        REPLY_1, REPLY_1, "h1 current 3450 1"] + counts(new=1, again=1)
    yield "sequence_0_is_new", names(b"h1") + received(case_6) + TICK + received(case_6), [
        REPLY, REPLY, "h1 current 3450 0"] + counts(new=2)
    yield "escaped_reply", names(b"h1") + received(frame(1, 0x7D, UPDATE)), [
        "reply 7e027d5dd4577e", "h1 current 3450 0"] + counts(new=1)
    yield "heard", names(b"h1") + received(frame(2, 5)), ["h1 never"] + counts(heard=1)
    yield "two_frames_in_a_field", names(b"h1") + received(b"noise" + again + case_6), [
        REPLY_1, REPLY, "h1 current 3450 0"] + counts(new=2)
    yield "cut_between_fields", names(b"h1") + received(case_6[:7]) + received(case_6[7:]), [
        REPLY, "h1 current 3450 0"] + counts(new=1)

    # Two neighbouring bytes 0d 7a, which are 3450, damaged to 26 90, which would be 9872.
    yield "damage_caught", names(b"h1") + received(case_6) + TICK + received(
        replaced(again, b"\x0d\x7a", b"\x26\x90")) + TICK, [
        REPLY, "h1 current 3450 2"] + counts(new=1, refused=(0, 0, 0, 1, 0, 0))
    # 7e 7d, which are 32381, sent as 7d 5e 7d 5d; the escapes exchanged; a byte behind one damaged.
    escapes = packet(H1, item(0x16, b"\x00\x00\x7e\x7d"))
    yield "damage_caught_in_escapes", names(b"h1") + received(frame(1, 0, escapes)) + received(
        replaced(frame(1, 1, escapes), b"\x7d\x5e\x7d\x5d", b"\x7d\x5d\x7d\x5e")) + received(
        replaced(frame(1, 2, escapes), b"\x7d\x5e\x7d\x5d", b"\x7d\x5e\x7d\x41")), [
        REPLY, "h1 current 32381 0"] + counts(new=1, refused=(1, 0, 0, 1, 0, 0))
    # The 17 bits of the polynomial, 00 01 10 21, in the value: the check cannot see them.
    yield "damage_passed", names(b"h1") + received(
        replaced(case_6, b"\x00\x00\x0d\x7a", b"\x00\x01\x1d\x5b")), [
        REPLY, "h1 current 73051 0"] + counts(new=1)
    # 50 3a damaged to 7d 5e, one content byte: taken too. Between them case 6, or it would be a repeat.
    unescaped = bytes.fromhex("7e010542503a4327247e")
    yield "damage_makes_an_escape", names(b"h1") + received(unescaped) + received(case_6) + received(
        replaced(unescaped, b"\x50\x3a", b"\x7d\x5e")), [
        REPLY_5, REPLY, REPLY_5, "h1 current 3450 0"] + counts(new=3, unread=2)
    # 01 02 damaged to 7e 02: two frames, of which neither is good.
    yield "damage_makes_a_flag", names(b"h1") + received(case_6) + received(
        replaced(again, b"\x01\x02\x68", b"\x7e\x02\x68")), [
        REPLY, "h1 current 3450 0"] + counts(new=1, refused=(0, 0, 0, 2, 0, 0))
    # 92 damaged to 7e: behind it the payload's end and the check are a whole acknowledgement.
    yield "damage_makes_a_frame", names(b"h1") + received(
        replaced(frame(1, 3, b"\x9a\x92\x02\x01"), b"\x92", b"\x7e")), [
        "h1 never"] + counts(heard=1, refused=(0, 0, 1, 0, 0, 0))

    yield "age_29", names(b"h1") + received(case_6) + TICK * 29, [
        REPLY, "h1 current 3450 29"] + counts(new=1)
    yield "silent_at_30", names(b"h1") + received(case_6) + TICK * 30, [
        REPLY, "h1 silent"] + counts(new=1)
    yield "current_again", names(b"h1") + received(case_6) + TICK * 31 + received(case_6), [
        REPLY, REPLY, "h1 current 3450 0"] + counts(new=2)

    yield "zero", *shown(integer(0, 1), "0")
    yield "minus_200", *shown(integer(-200, 2), "-200")
    yield "least", *shown(integer(-(2**63), 8), "-9223372036854775808")
    yield "greatest", *shown(integer(2**63 - 1, 8), "9223372036854775807")
    yield "boolean", *shown(item(0x0F, b"\x01"), "1")

    yield "name_of_27", names(b"h" * 27), ["h" * 27 + " never"] + counts()
    yield "name_of_28", *broken(names(b"h" * 28))
    for most in 16, 17, 40:
        yield f"names_{most}", numbered(most), [f"hive{n} never" for n in range(1, most + 1)] + counts()
    yield "names_41", *broken(numbered(41))
    # The first row and the last, and the two about the end of an old display's sixteen rows.
    yield "forty_hives", numbered(40) + updated(1, 17) + TICK + updated(16, 40) + TICK * 29, [
        REPLY, REPLY, REPLY, REPLY, "hive1 silent"] + [f"hive{n} never" for n in range(2, 16)] + [
        "hive16 current 16 29", "hive17 silent"] + [f"hive{n} never" for n in range(18, 40)] + [
        "hive40 current 40 29"] + counts(new=4)

    yield "bad_name", *broken(names(b"1h"))
    yield "name_twice", *broken(names(b"h1", b"h2", b"h1"))
    yield "name_empty", *broken(names(b""))
    yield "name_after_a_tick", *broken(names(b"h1") + TICK + names(b"h2"))
    yield "name_after_a_piece", *broken(received(b"") + names(b"h2"))
    yield "other_tag", *broken(names(b"h1") + received(case_6) + field(4) + TICK, REPLY)
    yield "tick_of_1", *broken(names(b"h1") + field(3, b"\x00"))
    # The low byte of these lengths alone would give a good name or tick, with a good field behind it.
    yield "name_of_258", *broken(field(1, b"h1" + received(bytes(253))))
    yield "name_of_258_cut", *broken(field(1, b"h1" + received(bytes(253)))[:5])
    yield "tick_of_256", *broken(names(b"h1") + field(3, received(bytes(253))))
    yield "field_of_4096", received(bytes(4096)), counts()
    yield "field_of_4097", *broken(received(bytes(4097)))
    yield "frame_in_a_field_of_4097", *broken(received(case_6 + bytes(4097 - len(case_6))))
    yield "cut_tag", *broken(names(b"h1") + b"\x03")
    yield "cut_length", *broken(names(b"h1") + b"\x03\x00")
    yield "cut_name", *broken(names(b"h1")[:-1])
    yield "cut_piece", *broken(names(b"h1") + received(case_6) + received(case_6)[:-1], REPLY)


def main():
    folder = pathlib.Path(sys.argv[1])
    folder.mkdir(parents=True, exist_ok=True)
    for name, history, lines in cases():
        (folder / f"{name}.history").write_bytes(history)
        (folder / f"{name}.expected").write_text("".join(line + "\n" for line in lines))


main()
