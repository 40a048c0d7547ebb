"""Makes the files of a session smaller as long as something holds of them: lines go first, then characters."""
import time

# seconds for one session
PATIENCE = 120


def shrink(words, files, holds):
    """Files of which this still holds, from which no line and no character can be taken away one by one, in the time there is."""
    end = time.monotonic() + PATIENCE
    files = dict(files)

    def try_parts(name, parts):
        """Takes away as many of the parts as can be, first half of them at a time, then fewer."""
        size = max(1, len(parts) // 2)
        while time.monotonic() < end:
            at = 0
            while at < len(parts) and time.monotonic() < end:
                fewer = parts[:at] + parts[at + size :]
                text = b"".join(fewer)
                if len(fewer) < len(parts) and holds(words, {**files, name: text}):
                    parts, files[name] = fewer, text
                else:
                    at += size
            if size == 1:
                return
            size //= 2

    before = None
    while before != files and time.monotonic() < end:
        before = dict(files)
        for name in sorted(files):
            try_parts(name, files[name].splitlines(keepends=True))
        for name in sorted(files):
            if len(files[name]) < 2000:
                text = files[name].decode("utf-8", "surrogateescape")
                try_parts(name, [it.encode("utf-8", "surrogateescape") for it in text])
    return files
