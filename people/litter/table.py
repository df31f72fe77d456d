"""A table of litters, as a spreadsheet writes it: read whole, or refused with the line that is not right."""
import re

# The engine's own limits (include/probit.h).
MOST_LITTERS = 128
FEWEST_A_GROUP = 2
MOST_PUPS = 1000

DELIMITERS = {",": "comma", ";": "semicolon", "\t": "tab"}
BLANK = " \u00a0"


class BadTable(Exception):
    """Why a table is not taken, in words, with its line where it has one."""


class Litter:
    def __init__(self, line, name, group, affected, total):
        self.line, self.name, self.group, self.affected, self.total = line, name, group, affected, total


class Table:
    def __init__(self, litters, labels, delimiter, unread, empty, named):
        self.litters, self.labels, self.delimiter, self.unread, self.empty, self.named = litters, labels, delimiter, unread, empty, named

    def numbers(self):
        """The litters as the engine takes them: affected, pups, group of each."""
        return [n for litter in self.litters for n in (litter.affected, litter.total, litter.group)]


def decode(data):
    """The text of the bytes: UTF-8, with or without its mark, or UTF-16 with its mark. Nothing else is guessed."""
    try:
        if data[:2] in (b"\xff\xfe", b"\xfe\xff"):
            text = data.decode("utf-16")
        else:
            text = data.decode("utf-8-sig")
    except UnicodeDecodeError as e:
        line = data[: e.start].count(b"\n") + 1
        raise BadTable(f"line {line}: a byte that is not UTF-8; save the table as CSV in UTF-8")
    if "\0" in text:
        line = text[: text.index("\0")].count("\n") + 1
        raise BadTable(f"line {line}: a zero byte; this is no text table (a workbook has to be saved as CSV first)")
    return text


def rows(text, delimiter):
    """Each row's first line and its cells, without the blanks about them. A quoted cell keeps its blanks, its line ends and its delimiters."""
    i, line, n = 0, 1, len(text)
    blank = BLANK.replace(delimiter, "")
    while i < n:
        first, cells, ended = line, [], False
        while not ended:
            while i < n and text[i] in blank:
                i += 1
            if i < n and text[i] == '"':
                opened, cell = line, ""
                i += 1
                while True:
                    if i >= n:
                        raise BadTable(f"line {opened}: a quotation mark that is never closed")
                    if text[i] == '"' and text[i + 1 : i + 2] == '"':
                        cell, i = cell + '"', i + 2
                    elif text[i] == '"':
                        i += 1
                        break
                    else:
                        if text[i] == "\n" or (text[i] == "\r" and text[i + 1 : i + 2] != "\n"):
                            line += 1
                        cell, i = cell + text[i], i + 1
                while i < n and text[i] in blank:
                    i += 1
                if i < n and text[i] not in delimiter + "\r\n":
                    raise BadTable(f"line {line}: text after a closing quotation mark")
                cell = cell.strip()
            else:
                start = i
                while i < n and text[i] not in delimiter + "\r\n":
                    i += 1
                cell = text[start:i].strip()
            cells.append(cell)
            if i < n and text[i] == delimiter:
                i += 1
                if i == n:
                    cells.append("")
                    ended = True
            else:
                if text[i : i + 2] == "\r\n":
                    i += 1
                i, line, ended = i + 1, line + 1, True
        yield first, cells


def heading(cells, wanted):
    """The places of the wanted columns, or the first that is not there once, in words."""
    lower = [cell.lower() for cell in cells]
    places = {}
    for what, names in wanted.items():
        found = [i for i, cell in enumerate(lower) if cell in [name.lower() for name in names]]
        if len(found) > 1:
            return None, f"two columns for the {what}: '{cells[found[0]]}' and '{cells[found[1]]}'"
        if found:
            places[what] = found[0]
        elif what != "name":
            return None, f"no column named '{names[0]}'"
    return places, None


def find_heading(text, wanted):
    """The delimiter, the line of the heading, its cells and its places. The delimiter is the one under which the columns are there."""
    told = re.match(r'(?:sep=|"sep=)(.)"?(?:\r\n|\n|\r)', text)
    faults = []
    for delimiter in [told.group(1)] if told else DELIMITERS:
        if delimiter not in DELIMITERS:
            raise BadTable(f"line 1: cells parted by '{delimiter}', where comma, semicolon or tab is read")
        try:
            for line, cells in rows(text, delimiter):
                if (told and line == 1) or not any(cells):
                    continue
                places, fault = heading(cells, wanted)
                if not fault:
                    return delimiter, line, cells, places
                faults.append((len(cells), line, cells, fault))
                break
        except BadTable as e:
            faults.append((0, 0, [], str(e)))
    if not faults:
        raise BadTable("the table is empty")
    # The delimiter that makes most cells of the heading was most likely meant: what lacks there is said.
    count, line, cells, fault = max(faults, key=lambda f: f[0])
    if not count:
        raise BadTable(fault)
    raise BadTable(f"line {line}: the heading has {fault}; it has {', '.join(repr(cell) for cell in cells if cell)}")


def whole(line, what, cell):
    if not cell:
        raise BadTable(f"line {line}: no value for {what}")
    if not re.fullmatch(r"[0-9]{1,9}", cell):
        raise BadTable(f"line {line}: {what} is '{cell}', which is not a whole number")
    return int(cell)


def read(data, columns, first=None):
    """The table of the bytes. columns: for group, affected, total and name the headings that are taken. first: the label of the first group."""
    text = decode(data)
    delimiter, at, cells, places = find_heading(text, columns)
    width = len(cells)
    while width and not cells[width - 1]:
        width -= 1
    unread = [cell for i, cell in enumerate(cells) if cell and i not in places.values()]
    litters, labels, seen, empty = [], [], {}, 0
    for line, row in rows(text, delimiter):
        if line <= at:
            continue
        if not any(row):
            empty += 1
            continue
        extra = [cell for cell in row[len(cells):] if cell]
        if extra:
            raise BadTable(f"line {line}: {len(row)} cells, where the heading has {width}; the first too many is '{extra[0]}'")
        value = {what: row[i] if i < len(row) else "" for what, i in places.items()}
        group = value["group"]
        if not group:
            raise BadTable(f"line {line}: no value for group")
        affected, total = whole(line, "affected", value["affected"]), whole(line, "total", value["total"])
        if total == 0:
            raise BadTable(f"line {line}: a total of 0; a litter has at least one pup")
        if affected > total:
            raise BadTable(f"line {line}: {affected} affected of {total}")
        if total > MOST_PUPS:
            raise BadTable(f"line {line}: a total of {total}; the engine takes 1 to {MOST_PUPS} pups in a litter")
        if group not in seen:
            if len(labels) == 2:
                raise BadTable(f"line {line}: a third group, '{group}', after '{labels[0]}' (line {seen[labels[0]]}) and '{labels[1]}' (line {seen[labels[1]]})")
            seen[group] = line
            labels.append(group)
        if len(litters) == MOST_LITTERS:
            raise BadTable(f"line {line}: litter {len(litters) + 1}; the engine takes at most {MOST_LITTERS}")
        litters.append(Litter(line, value.get("name", ""), group, affected, total))
    if not litters:
        raise BadTable(f"no litter after the heading (line {at})")
    if len(labels) == 1:
        raise BadTable(f"one group only, '{labels[0]}'; two are compared")
    if first is not None:
        if first not in labels:
            raise BadTable(f"no group '{first}'; the table has '{labels[0]}' and '{labels[1]}'")
        labels.sort(key=lambda label: label != first)
    for label in labels:
        of = [litter for litter in litters if litter.group == label]
        if len(of) < FEWEST_A_GROUP:
            raise BadTable(f"line {of[0].line}: the only litter of group '{label}'; a group needs {FEWEST_A_GROUP} or more")
    for litter in litters:
        litter.group = labels.index(litter.group)
    return Table(litters, labels, delimiter, unread, empty, "name" in places)
