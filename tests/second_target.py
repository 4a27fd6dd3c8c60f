"""What an RMAP target answers to a packet, written from the definitions of sw_rmap/specs alone: a part of second_machine.py."""
import functools


@functools.lru_cache(maxsize=None)
def with_crc(text):
    code = 0
    for byte in text:
        code ^= byte
        for _ in range(8):
            code = code >> 1 ^ (0xE0 if code & 1 else 0)
    return text + bytes([code])


def answer(target, memory, text, end):
    """The address that the reply to a packet goes to, the reply with it, both None where there is no reply, and the memory after the packet.

    `target` is its table in the network file, None at a node that is no target; `text` are the packet's bytes.
    """
    header = 16 + 4 * (text[2] & 3) if len(text) > 2 else 16
    if target is None or len(text) < header or text[1] != 1 or with_crc(text[: header - 1]) != text[:header] or text[2] >> 6 == 0:
        return None, None, memory
    logical, _, instruction, key = text[:4]
    reply_address, back, body = text[4 : header - 12], text[header - 12 : header], text[header:]
    initiator, transaction, address, length = back[:1], back[1:3], int.from_bytes(back[3:8]), int.from_bytes(back[8:11])
    is_write, code, at = bool(instruction & 32), instruction >> 2 & 15, address - target.get("start", 0)
    behind = length + 1 if is_write else 0
    cases = [
        (2, instruction >> 6 != 1 or not is_write and code not in (2, 3, 7)),
        (3, key != target.get("key", 0)),
        (12, logical != target["logical"]),
        (10, code == 7 or length > 1 and not instruction & 4 or at < 0 or target["size"] < at + length),
        (7, end == "EEP"),
        (5, len(body) < behind),
        (6, len(body) > behind),
        (4, is_write and with_crc(body[:length]) != body),
    ]
    status = next((status for status, is_so in cases if is_so), 0)
    found = memory[at : at + length] if status == 0 and not is_write else b""
    if status == 0 and is_write:
        memory = memory[:at] + body[:length] + memory[at + length :]
    if not instruction & 8 or reply_address and not any(reply_address):
        return None, None, memory
    path, head = reply_address.lstrip(b"\0"), initiator + bytes([1, instruction & 63, status, logical]) + transaction
    reply = with_crc(head) if is_write else with_crc(head + b"\0" + len(found).to_bytes(3)) + with_crc(found)
    return path + initiator, path + reply, memory


def reply_to(target, text):
    """The address that the reply to a packet goes to: neither the memory nor the packet's end counts."""
    return answer(target, b"", text, "EOP")[0]
