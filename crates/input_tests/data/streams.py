# The rows of the table streams, and what an input of a stream answers, by the definition of lines on all bytes joined.

ROOM = 262144
LONG = "1048576*61"

ROWS = [
    # lines come as they are read, each with the moment of the poll that read its last byte
    "line 2||| 610a620a|p n p n p e",
    # a line in three pieces, and two lines in one
    "line 3||| 6161610a62620a0a|p p n h p n h n h p",
    # whether a line is held goes by what was read, and not by a part of a line
    "line 9||| 610a62|h p h n h p h n h p e",
    # the last line needs no line feed, and is whole once the end is read
    "line 1||| 61|p n e p e n e p",
    # an empty stream ends without a line
    "line 9||||e p e n p",
    # a line feed ends an empty line, and the carriage return just before it goes with it
    "line 9||| 0a0d0a0d0d0a|p n n n n p",
    # nothing yet, again and again, and then the line
    "line 9||0 1 3|610a|p n p n p n p n p e",
    # a read that fails takes nothing, and the next one goes on where it stood
    "line 1|1 2||61620a|p p p p p n p",
    # a byte that is no text becomes one character, and the others stay
    "line 9|||61ff620ae2820a|p n n",
    # where a line is held no poll reads
    "line 2|1||610a620a|p p n p p n",
    # a line of so many bytes ends there, and a carriage return at its end stays
    f"line 9999999|||{LONG}+0a|p p p p n p n p n",
    # a read asks for so many bytes at most
    f"line 9999999|||{ROOM}*61+0a|p n p n",
    # an object is read as one, and another line as a text
    "json 99|||7b226d657373616765223a2278227d0a790a|p n n p",
]


def digits(words):
    data = b""
    for word in words.split():
        for piece in word.split("+"):
            count, base = piece.split("*") if "*" in piece else ("1", piece)
            data += bytes.fromhex(base) * int(count)
    return data


def answers(row, lines, text):
    words, failing, waiting, data, calls = row.split("|")
    codec, most = words.split()
    failing, waiting = ([int(n) for n in part.split()] for part in (failing, waiting))
    left, held, ended = digits(data), b"", False
    moments, given, polls, reads, out = [], 0, 0, 0, ""
    for call in calls.split():
        all_lines = [content for content, _ in lines(held, ended)]
        if call == "p":
            polls += 1
            answer = "lines"
            if len(all_lines) == given and not ended:
                number, reads = reads, reads + 1
                count = min(ROOM, int(most))
                if number in failing:
                    answer = "fault"
                elif number not in waiting:
                    ended = not left
                    held, left = held + left[:count], left[count:]
                all_lines = lines(held, ended)
                moments += [polls] * (len(all_lines) - len(moments))
            if answer != "fault" and len(all_lines) == given:
                answer = "end" if ended else "not yet"
        elif call == "n":
            answer = "none"
            if given < len(all_lines):
                message = text(all_lines[given])
                message = message[12:-2] if message.startswith("{") else message
                given += 1
                size = len(message.encode())
                answer = f"{message if size <= 40 else f'{size} bytes'}@{moments[given - 1]}"
        elif call == "h":
            answer = "held" if given < len(all_lines) else "none held"
        else:
            answer = "at its end" if ended else "open"
        out += answer + "; "
    return out
