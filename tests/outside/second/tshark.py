#!/usr/bin/env python3
"""tshark as a second reader of sections:  tshark.py FILE     (a file of `harness SEED COUNT --fields FILE`, `--tables FILE` or `--lists FILE`)

Each section goes into transport packets, the packets into a capture of link type 243, and tshark dissects it. Every field that the library
gave is compared with tshark's, as a list in the order of the section; so is what each says of the section as a whole. Where tshark differs
from document 01 the difference is named below, with its reason, and counted; any other fails.

Of a file of tables the packets are the library's, and the fields are those that the descriptors in them were written from.

Of a file of lists the packets are the library's: tshark must find the sections that went into them, in order, and no packet missing.
"""
import datetime
import struct
import subprocess
import sys
import tempfile


def whole(text):
    return int(text, 0)


def scaled(factor):
    return lambda text: round(float(text) * factor)


def letters(text):
    return text.encode("utf-8").hex()


def stuffing(text):
    return text.replace(":", "")


def moment(text):
    """As 1993-10-13 12:45:00. tshark keeps the undefined time as the last second of 32 bits."""
    if text.startswith("Feb  7, 2106 06:28:15"):
        return "undefined"
    when = datetime.datetime.strptime(text.split(".")[0], "%b %d, %Y %H:%M:%S")
    return f"{when.year:04}-{when.month:02}-{when.day:02} {when.hour:02}:{when.minute:02}:{when.second:02}"


def minutes(text):
    return round(float(text)) // 60


def duration(text):
    return f"{int(text, 0):06x}"


# How tshark's text of a field becomes the library's value: steps of 10 kHz, 100 Hz and 100 symbols a second, tenths of a degree, minutes.
FIELDS = {
    "mpeg_descr.tag": whole, "mpeg_descr.len": whole,
    "mpeg_descr.net_name.name": letters, "mpeg_descr.stuffing": stuffing,
    "mpeg_descr.svc_list.id": whole, "mpeg_descr.svc_list.type": whole,
    "mpeg_descr.sat_delivery.freq": scaled(100000), "mpeg_descr.sat_delivery.orbital_pos": scaled(10),
    "mpeg_descr.sat_delivery.west_east_flag": whole, "mpeg_descr.sat_delivery.polarization": whole,
    "mpeg_descr.sat_delivery.roll_off": whole, "mpeg_descr.sat_delivery.modulation_system": whole,
    "mpeg_descr.sat_delivery.modulation_type": whole, "mpeg_descr.sat_delivery.symbol_rate": scaled(10000),
    "mpeg_descr.sat_delivery.fec_inner": whole,
    "mpeg_descr.cable_delivery.freq": scaled(10000), "mpeg_descr.cable_delivery.fec_outer": whole,
    "mpeg_descr.cable_delivery.modulation": whole, "mpeg_descr.cable_delivery.sym_rate": scaled(10000),
    "mpeg_descr.cable_delivery.fec_inner": whole,
    "mpeg_descr.svc.type": whole, "mpeg_descr.svc.provider_name_len": whole, "mpeg_descr.svc.provider_name": letters,
    "mpeg_descr.svc.svc_name_len": whole, "mpeg_descr.svc.svc_name": letters,
    "mpeg_descr.short_evt.lang_code": letters, "mpeg_descr.short_evt.name_len": whole, "mpeg_descr.short_evt.name": letters,
    "mpeg_descr.short_evt.txt_len": whole, "mpeg_descr.short_evt.txt": letters,
    "mpeg_descr.content.nibble_lvl_1": whole, "mpeg_descr.content.nibble_lvl_2": whole, "mpeg_descr.content.user": whole,
    "mpeg_descr.parental_rating.country_code": letters, "mpeg_descr.parental_rating.rating": whole,
    "mpeg_descr.local_time_offset.country_code": letters, "mpeg_descr.local_time_offset.region_id": whole,
    "mpeg_descr.local_time_offset.offset": minutes, "mpeg_descr.local_time_offset.time_of_change": moment,
    "mpeg_descr.local_time_offset.next_time_offset": minutes,
    "mpeg_descr.terr_delivery.centre_freq": whole, "mpeg_descr.terr_delivery.bandwidth": whole,
    "mpeg_descr.terr_delivery.priority": whole, "mpeg_descr.terr_delivery.time_slicing_ind": whole,
    "mpeg_descr.terr_delivery.mpe_fec_ind": whole, "mpeg_descr.terr_delivery.constellation": whole,
    "mpeg_descr.terr_delivery.hierarchy_information": whole, "mpeg_descr.terr_delivery.code_rate_hp_stream": whole,
    "mpeg_descr.terr_delivery.code_rate_lp_stream": whole, "mpeg_descr.terr_delivery.guard_interval": whole,
    "mpeg_descr.terr_delivery.transmission_mode": whole, "mpeg_descr.terr_delivery.other_freq_flag": whole,
    "dvb_tdt.utc_time": moment, "dvb_tot.utc_time": moment,
    "dvb_eit.evt.start_time": moment, "dvb_eit.evt.duration": duration,
}
# What a content sheet says beside its descriptors.
SHEET = [
    "dvb_nit.sid", "dvb_nit.version", "dvb_nit.cur_next_ind", "dvb_nit.sect_num", "dvb_nit.last_sect_num",
    "dvb_nit.ts.id", "dvb_nit.ts.original_network_id",
    "dvb_bat.bouquet_id", "dvb_bat.version", "dvb_bat.cur_next_ind", "dvb_bat.sect_num", "dvb_bat.last_sect_num",
    "dvb_bat.ts.id", "dvb_bat.ts.original_nid",
    "dvb_sdt.tsid", "dvb_sdt.version", "dvb_sdt.cur_next_ind", "dvb_sdt.sect_num", "dvb_sdt.last_sect_num", "dvb_sdt.original_nid",
    "dvb_sdt.svc.id", "dvb_sdt.svc.eit_schedule_flag", "dvb_sdt.svc.eit_present_following_flag", "dvb_sdt.svc.running_status",
    "dvb_sdt.svc.free_ca_mode",
    "dvb_eit.sid", "dvb_eit.version", "dvb_eit.cur_next_ind", "dvb_eit.sect_num", "dvb_eit.last_sect_num", "dvb_eit.tsid",
    "dvb_eit.original_nid", "dvb_eit.segment_last_sect_num", "dvb_eit.last_tid", "dvb_eit.evt.id", "dvb_eit.evt.running_status",
    "dvb_eit.evt.free_ca_mode",
]
ASIDE = ["_ws.malformed", "mpeg_sect.crc.status", "mpeg_descr.local_time_offset.polarity"]

known = {}


def known_difference(reason):
    known[reason] = known.get(reason, 0) + 1


class Section:
    def __init__(self, data):
        self.data, self.number, self.place, self.fields, self.read = data, None, None, {}, False
        self.stream = []

    def whole(self):
        """Whether it can be put into packets: the collector of another parser goes by its length."""
        size = len(self.data)
        return size >= 3 and self.number != 2 and 3 + (self.data[1] % 16 * 256 + self.data[2]) == size


def sections(name):
    current = None
    for line in open(name):
        word, _, rest = line.rstrip("\n").partition(" ")
        if word == "section":
            if current:
                yield current
            current = Section(bytes.fromhex(rest))
        elif word == "number":
            current.number, current.place = map(int, rest.split())
        elif word == "read":
            current.read = rest == "1"
        elif word == "packets":
            stream = bytes.fromhex(rest)
            current.stream = [stream[i : i + 188] for i in range(0, len(stream), 188)]
        else:
            current.fields.setdefault(word, []).append(rest)
    if current:
        yield current


def pid_of(table_id):
    return {0x40: 0x10, 0x41: 0x10, 0x42: 0x11, 0x46: 0x11, 0x4A: 0x11, 0x70: 0x14, 0x73: 0x14}.get(table_id, 0x12)


def packets(section, counters):
    pid, data, start = pid_of(section[0]), b"\0" + section, 0x40
    while data:
        counter = counters[pid] = (counters.get(pid, 0) + 1) % 16
        part, data = data[:184], data[184:]
        yield bytes([0x47, start | pid >> 8, pid & 255, 0x10 | counter]) + part.ljust(184, b"\xff")
        start = 0


def frames(stream, names):
    """For each packet the texts of the fields."""
    with tempfile.NamedTemporaryFile(suffix=".pcap") as capture:
        capture.write(struct.pack("<IHHiIII", 0xA1B2C3D4, 2, 4, 0, 0, 65535, 243))
        for number, packet in enumerate(stream):
            capture.write(struct.pack("<IIII", number, 0, 188, 188) + packet)
        capture.flush()
        command = ["tshark", "-n", "-r", capture.name, "-o", "mpeg_sect.verify_crc:TRUE", "-T", "fields", "-E", "aggregator=\x1f"]
        for field in names:
            command += ["-e", field]
        said = subprocess.run(command, stdout=subprocess.PIPE, stderr=subprocess.DEVNULL, check=True).stdout.decode("utf-8")
    lines = said.split("\n")[:-1]
    if len(lines) != len(stream):
        sys.exit(f"tshark: {len(stream)} packets went in and {len(lines)} came out")
    return [{field: text.split("\x1f") if text else [] for field, text in zip(names, line.split("\t"))} for line in lines]


def dissected(chosen, names):
    """For each section the texts of the fields in the frame in which it ends."""
    counters, stream, ends = {}, [], []
    for section in chosen:
        stream += section.stream or packets(section.data, counters)
        ends.append(len(stream) - 1)
    said = frames(stream, names)
    return (said[end] for end in ends)


def fails(section, what):
    print(f"tshark: {what}\n  library: number {section.number}, place {section.place}\n  section: {section.data.hex(' ')}\ntshark: FAILED")
    sys.exit(1)


def without_entries(section):
    table_id, length = section.data[0], len(section.data) - 3
    return (table_id in (0x42, 0x46) and length == 12) or (0x4E <= table_id <= 0x6F and length == 15)


def inside_section(section):
    """Whether the descriptor at the library's place leaves its loop but not the section."""
    data, at = section.data, section.place
    return section.number == 9 and at + 2 <= len(data) and at + 2 + data[at + 1] <= len(data)


def two_too_many(section):
    """Whether the second loop of a NIT or BAT reaches past its room by one byte or two."""
    data, at = section.data, section.place
    if section.number != 8 or data[0] not in (0x40, 0x41, 0x4A) or at != 10 + (data[8] % 16 * 256 + data[9]):
        return False
    return at + 2 + (data[at] % 16 * 256 + data[at + 1]) - (len(data) - 4) <= 2


def compare_verdicts(section, said):
    malformed, crc = bool(said["_ws.malformed"]), said["mpeg_sect.crc.status"]
    number = section.number
    if crc == [] and without_entries(section):
        known_difference("of an SDT or EIT without entries the CRC is not looked at")
        crc = ["0"] if number == 6 else ["1"]
    if number == 0:
        if crc != ([] if section.data[0] == 0x70 or malformed else ["1"]):
            fails(section, f"finds the CRC wrong in a section that the library accepts: {crc}")
        if malformed and section.read:
            fails(section, "calls malformed what the library accepts")
        if malformed:
            known_difference("it looks into the bodies of descriptors while it judges")
    elif number == 6:
        if crc != ["0"] and not malformed:
            fails(section, "does not find the CRC wrong")
    elif number in (8, 9):
        if malformed:
            return
        if inside_section(section):
            known_difference("a descriptor is held to the section's end and not to its loop's")
        elif two_too_many(section):
            known_difference("the second loop's end is counted from its length and not from behind it")
        else:
            fails(section, "does not call malformed what the library refuses with 8 or 9")
    elif not malformed:
        known_difference({3: "the syntax bit is not looked at", 4: "section_length has no range",
                          7: "section_number above last_section_number is not looked at",
                          10: "bytes between the last loop and the CRC are passed over"}[number])


def in_32_bits(mjd, when):
    """The time as tshark has it, whose seconds run from 13 December 1901 to 19 January 2038 and round again."""
    hour, minute, second = map(int, when.split(" ")[1].split(":"))
    seconds = (mjd - 40587) * 86400 + hour * 3600 + minute * 60 + second
    known_difference("times are counted in 32 bits of seconds from 1970 on")
    return str(datetime.datetime(1970, 1, 1) + datetime.timedelta(seconds=(seconds + 2 ** 31) % 2 ** 32 - 2 ** 31))


def library_value(field, text, other, convert):
    """The library's value in tshark's terms."""
    if text == "undefined" and convert(other) != "undefined" and field != "dvb_eit.evt.start_time":
        known_difference("forty ones are undefined in the start of an event alone, and midnight of the MJD 65,535 elsewhere")
        text = "65535 2038-04-22 00:00:00"
    if convert is moment and text != "undefined":
        mjd, _, when = text.partition(" ")
        return when if convert(other) == when else in_32_bits(int(mjd), when)
    if field == "mpeg_descr.terr_delivery.centre_freq" and int(text) >= 2 ** 32 > convert(other):
        known_difference("terrestrial frequencies are counted in 32 bits of hertz")
        return int(text) % 2 ** 32
    return text if convert in (letters, stuffing, moment, duration) else int(text)


def signed(said):
    """tshark tells the polarity beside the offset; it is the sign of both."""
    for name in ("mpeg_descr.local_time_offset.offset", "mpeg_descr.local_time_offset.next_time_offset"):
        said[name] = [text if polarity == "0x00" or text.startswith("0.0") else "-" + text
                      for polarity, text in zip(said["mpeg_descr.local_time_offset.polarity"], said[name])]


def plain(section):
    return all(bytes.fromhex(text).isalpha() for name, texts in section.fields.items() if FIELDS.get(name) is letters for text in texts)


def first_ratings(section, said):
    """tshark 4.0 reads the first item of a parental rating descriptor alone."""
    for name in ("mpeg_descr.parental_rating.country_code", "mpeg_descr.parental_rating.rating"):
        items, library = iter(section.fields.get(name, [])), []
        if len(section.fields.get(name, [])) == len(said[name]):
            continue
        for tag, size in zip(section.fields.get("mpeg_descr.tag", []), section.fields.get("mpeg_descr.len", [])):
            if tag != "85":
                continue
            own = [next(items) for _ in range(int(size) // 4)]
            if len(own) > 1:
                known_difference("of a parental rating descriptor the first item alone is read")
            library += own[:1]
        section.fields[name] = library


def undefined_last(section, said):
    """tshark 4.0 hangs an event's undefined start not under the event but under the section, where it stands behind the others."""
    starts = section.fields.get("dvb_eit.evt.start_time", [])
    told = [moment(text) == "undefined" for text in said.get("dvb_eit.evt.start_time", [])]
    if "undefined" in starts and told != [text == "undefined" for text in starts]:
        known_difference("an undefined start stands behind the other starts")
        starts.sort(key=lambda text: text == "undefined")


def compare_fields(section, said, table):
    count = 0
    for field, convert in table.items():
        library, texts = section.fields.get(field, []), said[field]
        if len(library) != len(texts):
            fails(section, f"{field}: library has {len(library)} of them, tshark {len(texts)}: {library} {texts}")
        for text, other in zip(library, texts):
            value = library_value(field, text, other, convert)
            if value != convert(other):
                fails(section, f"{field}: library {value}, tshark {other}")
            count += 1
    return count


def lists(data):
    """Sections and packets of each list, of which the sections stand and no other before it has the PID."""
    at, pids = 8, set()
    while at < len(data):
        real, pid, _, count, size = struct.unpack_from("<BHBHH", data, at)
        sizes = struct.unpack_from(f"<{count}H", data, at + 8)
        at += 8 + 2 * count
        ends = [at + sum(sizes[: i + 1]) for i in range(count)]
        inside = [data[end - n : end] for end, n in zip(ends, sizes)]
        at += sum(sizes)
        if real and pid not in pids:
            yield inside, [data[i : i + 188] for i in range(at, at + 188 * size, 188)]
            pids.add(pid)
        at += 188 * size


def compare_lists(data):
    """Table_id and length of every section, that its CRC_32 holds where it is looked at, and that no counter is missing."""
    chosen = list(lists(data))
    names = ["mpeg_sect.tid", "mpeg_sect.len", "mpeg_sect.crc.status", "_ws.malformed", "mp2t.cc.drop"]
    said = iter(frames([packet for _, stream in chosen for packet in stream], names))
    found = read = 0
    for inside, stream in chosen:
        told = [next(said) for _ in stream]
        texts = {name: [text for frame in told for text in frame[name]] for name in names}
        wanted = [(section[0], section[1] % 16 * 256 + section[2]) for section in inside]
        seen = list(zip(map(whole, texts["mpeg_sect.tid"]), map(whole, texts["mpeg_sect.len"])))
        if seen != wanted or texts["_ws.malformed"] or texts["mp2t.cc.drop"] or set(texts["mpeg_sect.crc.status"]) - {"1"}:
            print(f"tshark: other sections than were written: {texts}\n  wanted: {wanted}")
            print("\n".join("  packet: " + packet.hex(" ") for packet in stream) + "\ntshark: FAILED")
            sys.exit(1)
        found += len(seen)
        read += len(stream)
    print(f"tshark: finds the {found} sections of {len(chosen)} lists in {read} packets: no difference")


def compare_sections(chosen, table):
    """How many sections were compared, and how many values in them; each field was met."""
    met = {name: 0 for name in table}
    accepted = values = 0
    for section, said in zip(chosen, dissected(chosen, list(table) + ASIDE)):
        compare_verdicts(section, said)
        if section.number != 0 or not section.read:
            continue
        if not plain(section):
            known_difference("texts are told by their character sets, so a section with other texts than letters is not compared")
            continue
        signed(said)
        first_ratings(section, said)
        undefined_last(section, said)
        values += compare_fields(section, said, table)
        accepted += 1
        for name in section.fields:
            met[name] += 1
    for reason in sorted(known):
        print(f"tshark: known difference, {known[reason]} times: {reason}")
    never = [name for name in table if met[name] == 0]
    if never:
        print(f"tshark: FAILED: never met: {' '.join(never)}")
        sys.exit(1)
    return accepted, values


def main():
    with open(sys.argv[1], "rb") as file:
        data = file.read()
    if data[:8] == b"lists   ":
        compare_lists(data)
        return
    every = list(sections(sys.argv[1]))
    chosen = [section for section in every if section.whole()]
    if all(section.stream for section in every):
        table = {name: convert for name, convert in FIELDS.items() if name.startswith("mpeg_descr.")}
        accepted, values = compare_sections(chosen, table)
        if accepted != len(every):
            sys.exit(f"tshark: FAILED: {accepted} of {len(every)} sections with written descriptors were compared")
        print(f"tshark: {values} values of {len(table)} fields, as the descriptors of {accepted} sections were written from: no other difference")
        return
    with_sheets = any(name in section.fields for section in chosen for name in SHEET)
    table = dict(FIELDS, **{name: whole for name in SHEET}) if with_sheets else FIELDS
    accepted, values = compare_sections(chosen, table)
    print(f"tshark: {len(chosen)} sections judged, {values} values of {len(table)} fields in {accepted} accepted ones: no other difference")


main()
