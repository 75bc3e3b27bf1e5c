"""Prints what the program `measured` must print, worked out from the definition."""

from literal import Sender, Sheet, bound, even

SENDERS = [
    Sender(node=1, identifier=16, data_bytes=2, jitter=0, spans=[100, 600, 700, 1200, 1300, 1800, 1900]),
    Sender(node=2, identifier=25, data_bytes=8, jitter=30, spans=even(1000)),
    Sender(node=3, identifier=25, data_bytes=4, jitter=0, spans=even(3000)),
    Sender(node=1, identifier=40, data_bytes=0, jitter=1450, spans=even(600)),
    Sender(node=3, identifier=300, data_bytes=4, jitter=0, spans=[900, 901, 901, 903, 904, 905, 8_388_608]),
    Sender(node=3, identifier=300, data_bytes=4, jitter=0, spans=[900, 901, 902, 903, 904, 905, 8_388_608]),
    Sender(node=16, identifier=2048, data_bytes=4, jitter=0, spans=even(3000)),
    Sender(node=0, identifier=1, data_bytes=1, jitter=4500, spans=even(4000)),
    Sender(node=4, identifier=50, data_bytes=8, jitter=1_048_577, spans=even(3000)),
    Sender(node=15, identifier=2047, data_bytes=8, jitter=0, spans=even(150)),
]

PLACES = [(0, 1), (0, 2), (0, 9), (1, 1), (2, 1), (2, 4), (3, 8), (4, 2), (5, 4_194_306)]


def main():
    sheet = Sheet()
    for sender in SENDERS:
        held, refusal = sheet.note(sender)
        print(f"noted {held}" if refusal is None else f"refused {refusal}")
    for stream, instance in PLACES:
        print(f"place {stream} {instance} {sheet.place(stream, 0, instance)}")
    for number, stream in enumerate(sheet.streams):
        print(f"bound {stream.identifier} {bound(sheet, number)}")


if __name__ == "__main__":
    main()
