"""Transcripts against the duplex sponge as its paper has it, in plain Python."""
import copy
import ctypes
import pickle
import random
import sys
import threading
import unittest

from paxidore import CountError, Field, Transcript, TranscriptError, parameters_bytes, ready_parameters
from paxidore import transcript as calls


class Model:
    """The sponge over lists of numbers: one element at a time, permuted where a block is full."""

    def __init__(self, p, full, partial, alpha, rate, capacity, mds, ark):
        self.p, self.full, self.partial, self.alpha = p, full, partial, alpha
        self.rate, self.capacity, self.mds, self.ark = rate, capacity, mds, ark
        self.state, self.at, self.squeezing = [0] * (rate + capacity), 0, False

    def permute(self):
        for number, row in enumerate(self.ark):
            self.state = [(x + c) % self.p for x, c in zip(self.state, row)]
            half = self.full // 2
            whole = number < half or number >= half + self.partial
            last = len(self.state) if whole else 1
            self.state = [pow(x, self.alpha, self.p) if i < last else x for i, x in enumerate(self.state)]
            self.state = [sum(m * x for m, x in zip(line, self.state)) % self.p for line in self.mds]

    def absorb(self, elements):
        if not elements:
            return
        if self.squeezing:
            self.at, self.squeezing = 0, False
        for x in elements:
            if self.at == self.rate:
                self.permute()
                self.at = 0
            place = self.capacity + self.at
            self.state[place] = (self.state[place] + x) % self.p
            self.at += 1

    def absorb_bytes(self, data):
        size = (self.p.bit_length() - 1) // 8
        text = len(data).to_bytes(8, "little") + data
        self.absorb([int.from_bytes(text[i : i + size], "little") % self.p for i in range(0, len(text), size)])

    def squeeze(self, count):
        if not self.squeezing:
            self.permute()
            self.at, self.squeezing = 0, True
        if not count and self.at == self.rate:
            self.permute()
            self.at = 0
        given = []
        for _ in range(count):
            if self.at == self.rate:
                self.permute()
                self.at = 0
            given.append(self.state[self.capacity + self.at])
            self.at += 1
        return given

    def squeeze_bytes(self, count):
        size = (self.p.bit_length() - 1) // 8
        elements = self.squeeze((count + size - 1) // size)
        mask = (1 << 8 * size) - 1
        return b"".join((x & mask).to_bytes(size, "little") for x in elements)[:count]


def drawn(rng, field, rate, capacity, full, partial, alpha):
    p, width = field.modulus, rate + capacity
    mds = [[rng.randrange(p) for _ in range(width)] for _ in range(width)]
    ark = [[rng.randrange(p) for _ in range(width)] for _ in range(full + partial)]
    numbers = (full, partial, alpha, rate, capacity, mds, ark)
    return Model(p, *numbers), Transcript(field, parameters_bytes(field, *numbers))


class Transcripts(unittest.TestCase):
    def test_drawn_transcripts_are_the_models(self):
        rng = random.Random(9)
        for field in Field:
            for rate, capacity, alpha in ((2, 1, 17), (1, 1, 5), (4, 2, 7), (8, 4, 3)):
                model, transcript = drawn(rng, field, rate, capacity, 4, 5, alpha)
                for _ in range(30):
                    self.turn(rng, field, model, transcript)

    def turn(self, rng, field, model, transcript):
        count = rng.randrange(0, 10)
        kind = rng.randrange(4)
        if kind == 0:
            elements = [rng.randrange(field.modulus) for _ in range(count)]
            model.absorb(elements)
            transcript.absorb(elements)
        elif kind == 1:
            data = rng.randbytes(7 * count)
            model.absorb_bytes(data)
            transcript.absorb_bytes(data)
        elif kind == 2:
            self.assertEqual(transcript.squeeze(count), model.squeeze(count))
        else:
            self.assertEqual(transcript.squeeze_bytes(3 * count), model.squeeze_bytes(3 * count))

    def test_a_copy_goes_on_alone(self):
        model, transcript = drawn(random.Random(1), Field.GOLDILOCKS, 3, 1, 8, 22, 7)
        transcript.absorb([1, 2, 3])
        copy = transcript.copy()
        transcript.absorb([4])
        model.absorb([1, 2, 3])
        self.assertEqual(copy.squeeze(5), model.squeeze(5))

    def test_threads_share_a_transcript(self):
        """No absorb is lost: four threads absorb as one."""
        interval = sys.getswitchinterval()
        self.addCleanup(sys.setswitchinterval, interval)
        sys.setswitchinterval(1e-6)
        model, transcript = drawn(random.Random(1), Field.GOLDILOCKS, 3, 1, 8, 22, 7)
        threads = [threading.Thread(target=lambda: [transcript.absorb([5]) for _ in range(100)]) for _ in range(4)]
        for thread in threads:
            thread.start()
        for thread in threads:
            thread.join()
        model.absorb([5] * 400)
        self.assertEqual(transcript.squeeze(2), model.squeeze(2))

    def test_a_number_that_is_too_long_to_print(self):
        _, transcript = drawn(random.Random(1), Field.GOLDILOCKS, 3, 1, 8, 22, 7)
        self.assertRaises(TranscriptError, transcript.absorb, [10**5000])
        self.assertEqual(repr(transcript), "<paxidore.Transcript over GOLDILOCKS>")

    def test_copies_share_nothing(self):
        model, transcript = drawn(random.Random(1), Field.GOLDILOCKS, 3, 1, 8, 22, 7)
        copies = [copy.copy(transcript), copy.deepcopy(transcript)]
        transcript.absorb([4])
        model.absorb([1])
        wanted = model.squeeze(3)
        for other in copies:
            other.absorb([1])
            self.assertEqual(other.squeeze(3), wanted)
        self.assertRaises(TypeError, pickle.dumps, transcript)

    def test_how_input_is_cut_does_not_count(self):
        rng = random.Random(2)
        _, whole = drawn(random.Random(3), Field.BABYBEAR, 5, 3, 8, 13, 7)
        _, parts = drawn(random.Random(3), Field.BABYBEAR, 5, 3, 8, 13, 7)
        elements = [rng.randrange(Field.BABYBEAR.modulus) for _ in range(23)]
        whole.absorb(elements)
        parts.absorb(elements[:4])
        parts.absorb(elements[4:4])
        parts.absorb(elements[4:])
        self.assertEqual(parts.squeeze(1) + parts.squeeze(11), whole.squeeze(12))

    def test_what_is_no_parameters_is_refused(self):
        field = Field.BN254_FR
        numbers = (2, 1, 5, 1, 1, [[1, 2], [3, 4]], [[5, 6], [7, 8], [9, 10]])
        good = parameters_bytes(field, *numbers)
        Transcript(field, good)
        for wrong in (b"", good[:-1], good + b"\0", good[:24] + b"\xff" * 8 + good[32:]):
            with self.assertRaises(TranscriptError):
                Transcript(field, wrong)
        with self.assertRaises(TranscriptError):
            Transcript(field, parameters_bytes(field, 2, 1, 5, 0, 2, numbers[5], numbers[6]))
        with self.assertRaises(TranscriptError):
            Transcript(field, parameters_bytes(field, 2, 2, 5, 1, 1, numbers[5], numbers[6]))
        with self.assertRaises(TranscriptError):
            parameters_bytes(field, 2, 1, 5, 1, 1, [[1, field.modulus], [3, 4]], numbers[6])
        with self.assertRaises(ValueError):
            Transcript(9, good)
        with self.assertRaises(TypeError):
            Transcript(field, bytearray(good))

    def test_prepared_parameters_answer_as_the_parameters(self):
        rng = random.Random(12)
        for field in Field:
            for rate, capacity in ((1, 1), (2, 1), (4, 2)):
                width = rate + capacity
                rows = [[[rng.randrange(field.modulus) for _ in range(width)] for _ in range(count)] for count in (width, 9)]
                given = parameters_bytes(field, 4, 5, 5, rate, capacity, *rows)
                if field.element_bytes == 32:
                    rows = [[[n * 2**256 % field.modulus for n in row] for row in part] for part in rows]
                wanted = parameters_bytes(field, 4, 5, 5, rate, capacity, *rows)
                self.assertEqual(self.prepared(field, given), (0, wanted))
                inputs = rng.randbytes(4), rng.randrange(field.modulus).to_bytes(field.element_bytes, "little")
                plain = self.answers(field, given, *inputs)
                self.assertEqual(plain[0], 0)
                self.assertEqual(self.answers(field + 256, wanted, *inputs), plain)

    def test_damaged_prepared_parameters_are_refused(self):
        field = Field.BN254_FR
        given = parameters_bytes(field, 2, 1, 5, 1, 1, [[1, 2], [3, 4]], [[5, 6], [7, 8], [9, 10]])
        _, good = self.prepared(field, given)
        inputs = b"a", bytes(32)

        def answer(parameters):
            return self.answers(field + 256, parameters, *inputs)[0]

        self.assertEqual(answer(good), 0)
        for end in range(len(good)):
            self.assertEqual(answer(good[:end]), -2)
        self.assertEqual(answer(good + b"\0"), -3)
        for at in [40 + 72 * row + 32 * i for row in range(3) for i in range(2)]:
            for number, wanted in ((field.modulus - 1, 0), (field.modulus, -3), (2**256 - 1, -3)):
                self.assertEqual(answer(good[:at] + number.to_bytes(32, "little") + good[at + 32 :]), wanted)
        # a rate of 0, a round more, and a field that no number names
        self.assertEqual(answer(good[:-16] + bytes(8) + good[-8:]), -3)
        self.assertEqual(answer(b"\3" + good[1:]), -3)
        for name in (256, 261):
            self.assertEqual(self.answers(name, good, *inputs)[0], -3)
        for name in (0, 5, 256, 257, 260):
            self.assertEqual(self.prepared(name, good)[0], -3)

    def prepared(self, field, parameters):
        size, room = ctypes.c_size_t(0), ctypes.create_string_buffer(len(parameters))
        answer = calls._prepare(room, len(room), ctypes.byref(size), field, parameters, len(parameters))
        return answer, room.raw[: size.value]

    def answers(self, name, parameters, data, element):
        """The first refusal, or the state after each call and all that was squeezed."""
        size, room = ctypes.c_size_t(0), ctypes.create_string_buffer(4096)
        answer = calls._init(room, len(room), ctypes.byref(size), name, parameters, len(parameters))
        if answer:
            return (answer,)
        state = ctypes.create_string_buffer(room.raw[: size.value], size.value)
        args = state, len(state), name, parameters, len(parameters)
        seen = [state.raw]
        for call, given in ((calls._absorb, element), (calls._absorb_bytes, data)):
            self.assertEqual(call(*args, given, len(given)), 0)
            seen.append(state.raw)
        for call, count in ((calls._squeeze, 3 * len(element)), (calls._squeeze_bytes, 50)):
            out = ctypes.create_string_buffer(count)
            self.assertEqual(call(out, count, *args), 0)
            seen += [out.raw, state.raw]
        return (0, *seen)

    def test_ready_parameters_are_arkworks(self):
        # what arkworks' sponge over BLS12-381 gives after 0, 1, 2
        transcript = Transcript(Field.BLS12_381_FR, ready_parameters(Field.BLS12_381_FR, 2))
        transcript.absorb([0, 1, 2])
        self.assertEqual(
            transcript.squeeze(3),
            [
                0x5969CF56A91CE66A4AE36F5797430C7B7848AC9B3BE99D7B4FBDB4E23F7B786C,
                0x05E3FB856924C80FCF5361FAE4624F2FDBE9CDA86E2B98C132B3C2595B6CA6F5,
                0x6EF724D6FCAE075D004F1D7C2758AD681AF9B1EAA214C0A3A2BA9D2B108D4A3D,
            ],
        )
        for rate in range(2, 9):
            for field in (Field.BLS12_381_FR, Field.BN254_FR):
                Transcript(field, ready_parameters(field, rate)).squeeze(1)
        for field, rate in ((Field.BN254_FR, 1), (Field.BN254_FR, 9), (Field.BLS12_381_FR, 0)):
            with self.assertRaises(CountError):
                ready_parameters(field, rate)
        for rate in (2, 9):
            with self.assertRaises(TranscriptError) as raised:
                ready_parameters(Field.GOLDILOCKS, rate)
            self.assertEqual(raised.exception.code, -3)

    def test_elements_past_the_modulus_are_refused(self):
        _, transcript = drawn(random.Random(4), Field.GOLDILOCKS, 2, 1, 2, 1, 7)
        for wrong in (-1, Field.GOLDILOCKS.modulus):
            with self.assertRaises(TranscriptError):
                transcript.absorb([0, wrong])

    def test_only_int_is_taken(self):
        field = Field.GOLDILOCKS
        numbers = {"full_rounds": 2, "partial_rounds": 1, "alpha": 7, "rate": 1, "capacity": 1}
        rows = {"mds": [[1, 2], [3, 4]], "ark": [[5, 6], [7, 8], [9, 10]]}
        transcript = Transcript(field, parameters_bytes(field, **numbers, **rows))
        calls = [
            (name, lambda wrap, name=name: parameters_bytes(field, **dict(numbers, **{name: wrap(1)}), **rows))
            for name in numbers
        ]
        calls += [
            ("an element", lambda wrap: parameters_bytes(field, **numbers, **dict(rows, mds=[[1, wrap(2)], [3, 4]]))),
            ("an element", lambda wrap: parameters_bytes(field, **numbers, **dict(rows, ark=[[wrap(5), 6]] * 3))),
            ("an element", lambda wrap: transcript.absorb([1, wrap(2)])),
            ("count", lambda wrap: transcript.squeeze(wrap(1))),
            ("count", lambda wrap: transcript.squeeze_bytes(wrap(1))),
            ("rate", lambda wrap: ready_parameters(Field.BN254_FR, wrap(2))),
        ]
        for wrap in (float, str, lambda number: [number]):
            for name, call in calls:
                with self.assertRaisesRegex(TypeError, "^%s is int, not %s$" % (name, type(wrap(1)).__name__)):
                    call(wrap)


if __name__ == "__main__":
    unittest.main()
