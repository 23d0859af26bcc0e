"""A reader of the folder's volumes that follows its README and the note. It parses each JSON file, makes the image of each text, reads
the volume, finishes a waiting change by its journal, and compares."""

import hashlib
import json
import pathlib
import sys

SECTOR = 512


def image_of(text):
    lines = [line.split("#")[0].split() for line in text.splitlines()]
    lines = [words for words in lines if words]
    assert lines[0] == ["goofs-volume", "1"] and lines[1][0] == "sectors"
    image = bytearray(int(lines[1][1]) * SECTOR)
    for words in lines[2:]:
        if words[0] == "sector":
            start = int(words[1]) * SECTOR
        else:
            if words[2:3] == ["times"]:
                data = bytes.fromhex(words[1]) * int(words[3])
            else:
                data = bytes.fromhex("".join(words[1:]))
            at = start + int(words[0])
            image[at:at + len(data)] = data
    return image


def number(image, at, width):
    return int.from_bytes(image[at:at + width], "big")


def geometry_of(image):
    """The geometry and the journal length, or the number of the refusal."""
    if not image or len(image) % SECTOR:
        return 1, None
    edition = number(image, 16, 2)
    if image[8:16] != b"/Goo/FS/" or edition not in (1, 2):
        return 2, None
    files, extents, size = number(image, 0, 2), number(image, 2, 2), number(image, 4, 4)
    table = (extents + 127) // 128
    data = 34 + files + table
    end = data + extents * size
    if files < 255 or extents < 2 or size < 128 or end * SECTOR > len(image):
        return 3, None
    reserve = -(-(table + 3) // size)
    geometry = dict(edition=edition, files=files, extents=extents, extent_sectors=size, table_sectors=table, reserve_extents=reserve,
                    directory_at=2, journal_at=2 + files, table_at=34 + files, data_at=data,
                    reserve_at=data + (extents - reserve) * size, end=end)
    return geometry, number(image, 18, 2)


def contents_of(image, geometry):
    """The contents, or the fault and its place."""
    edition, size = geometry["edition"], geometry["extent_sectors"] * SECTOR
    width = 4 * edition
    table = [(number(image, at, 2), number(image, at + 2, 2)) for at in
             range(geometry["table_at"] * SECTOR, geometry["table_at"] * SECTOR + 4 * geometry["extents"], 4)]
    root = dict(version=number(image, 512, 4), id=number(image, 516, 8), mode=number(image, 524, 4),
                access_time=number(image, 528, width), change_time=number(image, 528 + width, width))
    faults, names, ids, occupied, files = [], set(), {0, root["id"]}, set(), []
    for index in range(geometry["files"]):
        at = (2 + index) * SECTOR
        mark = number(image, at, 2)
        if mark not in (0, 65535):
            faults.append((21, index))
        if mark != 65535:
            continue
        occupied.add(index)
        length = number(image, at + 26 + 2 * width, 2)
        name = bytes(image[at + 28 + 2 * width:][:length])
        file = dict(index=index, name=name.decode("ascii") if all(32 <= b <= 126 for b in name) else None, name_hex=name.hex(),
                    size=number(image, at + 2, 8), version=number(image, at + 10, 4), id=number(image, at + 14, 8),
                    mode=number(image, at + 22, 4), access_time=number(image, at + 26, width),
                    change_time=number(image, at + 26 + width, width))
        if not 1 <= length <= SECTOR - 28 - 2 * width or 0 in name or file["size"] > geometry["extents"] * size:
            faults.append((22, index))
        if name in names:
            faults.append((23, index))
        if file["id"] in ids:
            faults.append((24, index))
        names.add(name)
        ids.add(file["id"])
        held = sorted((offset, extent) for extent, (owner, offset) in enumerate(table) if owner == index)
        if [offset for offset, _ in held] != list(range(min(-(-file["size"] // size), 70000))):
            faults.append((26, index))
        file["extents"] = [extent for _, extent in held]
        data = b"".join(image[geometry["data_at"] * SECTOR + extent * size:][:size] for extent in file["extents"])
        file["sha256"] = hashlib.sha256(data[:file["size"]]).hexdigest()
        files.append(file)
    faults += [(25, extent) for extent, (owner, _) in enumerate(table) if owner != 65535 and owner not in occupied]
    if faults:
        return min(faults)
    free = [extent for extent, (owner, _) in enumerate(table) if owner == 65535]
    return dict(root=root, free_extents=free, frozen=len(free) < geometry["reserve_extents"], files=files)


def recovered(image, geometry, entries):
    """The image when the change was finished, or nothing if the journal is bad."""
    targets = [entry["target"] for entry in entries]
    journal, table, data, end = (geometry[name] for name in ("journal_at", "table_at", "data_at", "end"))
    if len(set(targets)) < len(targets) or any(not data <= entry["source"] < end for entry in entries):
        return None
    if any(not (1 <= target < journal or table <= target < data) for target in targets):
        return None
    done = bytearray(image)
    for entry in entries:
        source, target = entry["source"] * SECTOR, entry["target"] * SECTOR
        done[target:target + SECTOR] = image[source:source + SECTOR]
    done[18:20] = b"\0\0"
    return done


def image_statement(image):
    return dict(sectors=len(image) // SECTOR, sha256=hashlib.sha256(image).hexdigest())


def statement_of(image):
    geometry, length = geometry_of(image)
    told = dict(image=image_statement(image), geometry=None, state=None, verdict=dict(number=0, fault=0, place=0))
    if length is None:
        told["verdict"]["number"] = geometry
        return told
    told["geometry"] = geometry
    if length == 65535:
        told["state"], told["verdict"]["number"] = "unfinished", 4
    elif length > 1024:
        told["state"], told["verdict"]["number"] = "damaged", 6
    elif length:
        told["state"], told["verdict"]["number"] = "waiting", 5
        at = geometry["journal_at"] * SECTOR
        told["journal"] = [dict(source=number(image, at + 16 * k, 8), target=number(image, at + 16 * k + 8, 8)) for k in range(length)]
        done = recovered(image, geometry, told["journal"])
        told["recovery"] = dict(number=6) if done is None else dict(
            number=0, image=image_statement(done), contents=contents_of(done, geometry))
    else:
        told["state"] = "clean"
        contents = contents_of(image, geometry)
        if isinstance(contents, tuple):
            told["verdict"] = dict(number=7, fault=contents[0], place=contents[1])
        else:
            told["contents"] = contents
    return told


count = 0
for path in sorted(pathlib.Path(sys.argv[1]).glob("*.json")):
    given = json.loads(path.read_text(encoding="ascii"))
    assert given.pop("name") == path.stem and given.pop("what")
    told = statement_of(image_of(path.with_suffix(".txt").read_text(encoding="ascii")))
    if told != given:
        sys.exit(f"{path.name}: read\n{told}\nand the statement says\n{given}")
    count += 1
print(count, "volumes")
