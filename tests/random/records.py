"""Records of CSV, read and written byte by byte: what `fillcsv` reads and writes is compared with them."""


def read(text):
    """The records of a file, each a list of fields; a byte order mark and empty lines are left out."""
    if text.startswith(b"\xef\xbb\xbf"):
        text = text[3:]
    records, fields, field = [], [], bytearray()
    # whether a record has begun, whether its field has, whether that stands in quotes
    begun = inside = quoted = False
    at = 0
    while at < len(text):
        c = text[at]
        at += 1
        if quoted:
            if c == 0x22 and text[at : at + 1] == b'"':
                at += 1
                field.append(c)
            elif c == 0x22:
                quoted = False
            else:
                field.append(c)
        elif c == 0x22 and not inside:
            begun = inside = quoted = True
        elif c == 0x2C:
            begun, inside = True, False
            fields.append(bytes(field))
            field.clear()
        elif c in b"\r\n":
            if begun:
                records.append([*fields, bytes(field)])
            fields, begun, inside = [], False, False
            field.clear()
        else:
            begun = inside = True
            field.append(c)
    if begun:
        records.append([*fields, bytes(field)])
    return records


def write(records):
    """The records with quotes where they are needed; one whose only field is empty stands in quotes."""
    text = bytearray()
    for record in records:
        fields = [b'"' + it.replace(b'"', b'""') + b'"' if set(it) & set(b',"\r\n') else it for it in record]
        text += (b",".join(fields) or b'""') + b"\n"
    return bytes(text)
