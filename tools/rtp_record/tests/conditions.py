"""What a network does to a stream: each condition turns the clean packets into the packets that arrive, and gives the places of the
clean ones among them."""

import random
from dataclasses import replace


def clean(packets):
    return packets, set(range(len(packets)))


def lossy(packets):
    """Three of a hundred are lost."""
    chance = random.Random(1)
    there = {place for place in range(len(packets)) if chance.random() >= 0.03}
    return [packets[place] for place in sorted(there)], there


def repeated(packets):
    """One in ten comes twice, the second time behind the next one."""
    chance, come = random.Random(2), []
    late = None
    for packet in packets:
        come.append(packet)
        if late:
            come.append(replace(late, time=packet.time))
        late = packet if chance.random() < 0.1 else None
    return come, set(range(len(packets)))


def swapped(packets):
    """The first two, and one pair in ten, come in the wrong order."""
    chance, come = random.Random(3), list(packets)
    place = 0
    while place + 1 < len(come):
        if place == 0 or chance.random() < 0.1:
            first, second = come[place], come[place + 1]
            come[place], come[place + 1] = replace(second, time=first.time), replace(first, time=second.time)
            place += 1
        place += 1
    return come, set(range(len(packets)))


def padded(packets):
    """Each packet has four bytes of padding, and after each tenth follows a packet of padding only, with the next number."""
    come, number = [], packets[0].number
    for place, packet in enumerate(packets):
        packet = packet.changed(number=number)
        padding = bytes([0, 0, 0, 4])
        payload = bytes([packet.payload[0] | 0x20]) + packet.payload[1:] + padding
        come.append(packet if packet.payload[0] & 0x20 else replace(packet, payload=payload))
        number += 1
        if place % 10 == 9 and place + 1 < len(packets) and packets[place + 1].timestamp != packet.timestamp:
            alone = packet.changed(number=number).payload
            come.append(replace(packet, payload=bytes([0xA0, alone[1] & 0x7F]) + alone[2:12] + padding))
            number += 1
    return come, set(range(len(packets)))


def wrapping(packets):
    """Numbers and times wrap in the middle."""
    middle = packets[len(packets) // 2]
    return [
        packet.changed(number=packet.number - middle.number, timestamp=packet.timestamp - middle.timestamp) for packet in packets
    ], set(range(len(packets)))


def middle(packets):
    """The place of the first packet of the middle frame."""
    half = len(packets) // 2
    while packets[half].timestamp == packets[half - 1].timestamp:
        half += 1
    return half


def restarted(packets):
    """From the middle frame on the sender has other numbers and times."""
    half = middle(packets)
    return [
        packet if place < half else packet.changed(number=packet.number + 30000, timestamp=packet.timestamp + 10**9)
        for place, packet in enumerate(packets)
    ], set(range(len(packets)))


ALL = [clean, lossy, repeated, swapped, padded, wrapping, restarted]
