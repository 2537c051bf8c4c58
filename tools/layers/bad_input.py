"""Bad input at the Python layer gets Refused, or TypeError where it is no number at all. bad_input.py: needs DOMTHELV_SO and the module on the path; the last line is 'N passed, M failed'."""
import math
import struct
import sys

import domthelv as d

passed = failed = 0
RIGHT = dict(m=[1, 1], sigma=[2.7778, 3.0243], epsilon_k=[37.501, 26.706], lr=[13, 9], la=[6, 6], mass=[3.35092e-26, 3.3474472e-27], order=[1, 1], k_ij=[0] * 4, l_ij=[0] * 4)
MIE = dict(m=[1, 1], sigma=[3.7257, 3.7412], epsilon_k=[206.12, 153.36], lr=[12.4, 12.65], la=[6, 6], k_ij=[0] * 4, gamma_ij=[0] * 4)
STATE = dict(temperature=30.0, fractions=[0.5, 0.5], densities=[0.01, 0.01])


def told(given, what):
    global passed, failed
    passed += given
    failed += not given
    if not given:
        print("does not hold:", what)


def refused(number, what, call, *handed, **named):
    """The call is refused with the number."""
    try:
        call(*handed, **named)
    except d.Refused as e:
        told(e.number == number, f"{what}: refused with {e.number}, not {number}")
    else:
        told(False, f"{what}: not refused")


def wrong(what, call, *handed, **named):
    """What is no number is a TypeError, or a ValueError of a text."""
    try:
        call(*handed, **named)
    except (TypeError, ValueError, OverflowError):
        told(True, what)
    else:
        told(False, f"{what}: taken")


def lengths():
    for name in RIGHT:
        for n in [*range(20), 143, 144, 145, 1000]:
            if n != len(RIGHT[name]):
                refused(1, f"{name} of {n}", d.QuantumSet, **{**RIGHT, name: [1] * n})
                refused(1, f"{name} of {n}, stage", d.quantum_stage, **STATE, **{**RIGHT, name: [1] * n})
    for name in MIE:
        for n in [*range(20), 143, 144, 145, 1000]:
            if n != len(MIE[name]):
                refused(1, f"{name} of {n}, Mie", d.MieSet, **{**MIE, name: [1] * n})
                refused(1, f"{name} of {n}, Mie stage", d.mie_stage, **STATE, **{**MIE, name: [1] * n})
    s, mie = d.QuantumSet(**RIGHT), d.MieSet(**MIE)
    t, single = s.table(30.0), d.QuantumSet(m=[1], sigma=[3], epsilon_k=[30], lr=[12], la=[6], mass=[1e-26], order=[1], k_ij=[0], l_ij=[0])
    for n in [0, 1, 3, 4, 12, 13, 576]:
        for name in ("fractions", "densities"):
            state = {**STATE, name: [0.1] * n}
            for call in (s.energies, s.total, s.energies_ends):
                refused(1, f"{name} of {n}", call, t, **state)
            for call in (mie.dispersion, mie.dispersion_ends):
                refused(1, f"{name} of {n}, Mie", call, [3.6, 3.6], **state)
        refused(1, f"diameters of {n}", mie.dispersion, [3.6] * n, **STATE)
    refused(1, "a table of another count", s.energies, single.table(30.0), **STATE)
    told(s.energies(t, **STATE, non_additive=True) == d.quantum_stage(**STATE, non_additive=True, **RIGHT), "a stage gives the energies")
    told(mie.dispersion(mie.diameters(200.0), 200.0, [0.4, 0.6], [0.003, 0.004], chain=True) == d.mie_stage(200.0, [0.4, 0.6], [0.003, 0.004], chain=True, **MIE), "a stage gives the dispersion")


def indexes():
    s, mie = d.QuantumSet(**RIGHT), d.MieSet(**MIE)
    t = s.table(30.0)
    pairs = [t.sigma_eff, t.hs_diameter, t.epsilon_k_eff, t.quantum_d, t.sigma_count, t.zero_count, t.depth_count, s.sigma_ij, s.epsilon_k_ij, s.c_ij, s.lambda_r_ij, s.lambda_a_ij, s.mass_ij, s.order, mie.sigma_ij, mie.epsilon_k_ij, mie.lr_ij, mie.la_ij, mie.c_ij, mie.alpha_ij]
    pairs += [lambda i, j: s.radii(i, j, 30.0), lambda i, j: s.diameter(i, j, 30.0, 3.0, 2.5), lambda i, j: s.diameter_ends(i, j, 30.0, 3.0, 2.5), lambda i, j: mie.radius(i, j, 200.0), lambda i, j: mie.diameter(i, j, 200.0, 0.8), lambda i, j: mie.diameter_ends(i, j, 200.0, 0.8)]
    for call in pairs:
        for k in (2, 11, 12, 144, -1, -2, 2**63, 2**64, 2**64 + 1, -(2**64), 10**30):
            refused(1, f"index {k}", call, k, 0)
            refused(1, f"index {k}", call, 0, k)
        wrong("an index 0.0", call, 0.0, 0)
        wrong("an index '0'", call, "0", 0)
    for call in (mie.m, mie.sigma, mie.epsilon_k, mie.lr, mie.la):
        for k in (2, 12, -1, 2**64):
            refused(1, f"component {k}", call, k)
    told(s.radii(0, 1, 30.0).sigma.radius == t.sigma_eff(0, 1) and s.order(0, 1) == 1 and mie.la(1) == 6.0, "entries")


def numbers():
    s, mie = d.QuantumSet(**RIGHT), d.MieSet(**MIE)
    t = s.table(30.0)
    for bad in (math.nan, math.inf, -math.inf, 0.5, 2001.0, -30.0):
        refused(2, f"temperature {bad}", s.table, bad)
        refused(2, f"temperature {bad}", mie.diameters, bad)
        refused(2, f"a state at {bad}", s.energies, t, **{**STATE, "temperature": bad})
    for bad in (3, 255, 256, 257, 258, -1, -255, 2**70):
        refused(4, f"order {bad}", d.QuantumSet, **{**RIGHT, "order": [1, bad]})
    refused(5, "orders 1 and 2", d.QuantumSet, **{**RIGHT, "order": [1, 2]})
    refused(3, "m of 2", d.QuantumSet, **{**RIGHT, "m": [1, 2]})
    refused(3, "a record's m", d.record_m, math.nan)
    refused(6, "root of -1", d.sqrt, -1)
    refused(6, "power of 33", d.powf, 33, 1)
    for count in (0, 13, -1, 2**64, 2**64 + 2):
        refused(1, f"orders of {count}", d.order_counts, count)
    told(d.order_counts(2) == (7, 7, 2) and d.powi(2.0, 5) == 32.0 and d.sqrt(2.25) == 1.5, "elementary functions and orders")
    wrong("an exponent beyond 32 bits", d.powi, 2.0, 2**31)
    wrong("a list of texts", d.QuantumSet, **{**RIGHT, "sigma": ["a", "b"]})
    wrong("no list", d.QuantumSet, **{**RIGHT, "sigma": None})
    wrong("an order of 1.0", d.QuantumSet, **{**RIGHT, "order": [1.0, 1]})
    wrong("a complex temperature", s.table, 1j)
    wrong("no table", s.energies, [0.0] * 576, **STATE)
    wrong("a list that is not named so", d.mie_stage, **STATE, **MIE, mass=[1])


def card_of(model, stored, lists):
    """The bytes of a card of two components, its pair's numbers stored or spared."""
    number = lambda x: format(struct.unpack(">Q", struct.pack(">d", x))[0], "064b")
    names = ["m", "sigma", "epsilon_k", "lr", "la"] if model % 2 else ["sigma", "epsilon_k", "lr", "la", "mass"]
    bits = format(model, "02b") + format(2, "04b")
    for i in range(2):
        bits += "".join(number(lists[name][i]) for name in names) + ("" if model % 2 else format(lists["order"][i], "02b"))
    bits += "".join(("1" if model > 1 and stored else "0" if model > 1 else "") + (number(-0.0 if model > 1 else 0.0) if stored else "") for _ in range(2))
    bits += "0" * (-len(bits) % 8)
    return bytes(int(bits[k:k + 8], 2) for k in range(0, len(bits), 8))


def cards():
    s, mie = d.QuantumSet(**RIGHT), d.MieSet(**MIE)
    quantum, other, newer, newer_other = card_of(0, True, RIGHT), card_of(1, True, MIE), card_of(2, False, RIGHT), card_of(3, True, MIE)
    for read, card in ((d.card_set, quantum), (d.newer_card_set, newer)):
        given = read(card)
        told(isinstance(given, d.QuantumSet) and given.count == 2 and list(given._sheets) == list(s._sheets) and list(given._orders) == list(s._orders), "a card")
        told(given.table(30.0).hs_diameter(0, 1) == s.table(30.0).hs_diameter(0, 1), "its table")
        for n in range(len(card)):
            refused(9, f"{n} bytes of a card", read, card[:n])
        refused(11, "a byte left over", read, card + b"\0")
        wrong("a byte of 256", read, [*card[:-1], 256])
        wrong("a text", read, "a card")
        wrong("a number", read, 5)
    for read, card in ((d.card_set, other), (d.newer_card_set, newer_other)):
        given = read(list(card))
        told(isinstance(given, d.MieSet) and list(given._lists) == list(mie._lists) and list(given._sheets) == list(mie._sheets), "a card of SAFT-VR Mie")
    refused(10, "a newer card as an older one", d.card_set, newer)
    refused(10, "an older card as a newer one", d.newer_card_set, quantum)
    refused(15, "a stored +0", d.newer_card_set, stored_zero(newer))


def written_cards():
    told(d.quantum_card(**RIGHT) == card_of(0, True, RIGHT) and d.mie_card(**MIE) == card_of(1, True, MIE), "cards are written")
    for name in RIGHT:
        for n in [*range(20), 143, 144, 145, 1000]:
            if n != len(RIGHT[name]):
                refused(1, f"a card, {name} of {n}", d.quantum_card, **{**RIGHT, name: [1] * n})
    nine = {name: list(RIGHT[name][:1]) * (81 if name.endswith("_ij") else 9) for name in RIGHT}
    refused(10, "nine components", d.quantum_card, **nine)
    refused(4, "an order of 3 among nine components", d.quantum_card, **{**nine, "order": [3] * 9})
    refused(2, "a sigma of 17", d.mie_card, **{**MIE, "sigma": [3.7, 17]})


def moved_cards():
    for older, newer in ((card_of(1, True, MIE), card_of(3, False, MIE)), (card_of(0, True, RIGHT), card_of(2, False, RIGHT))):
        told(d.card_to_newer(older) == newer and d.card_to_older(newer) == older, "cards are moved both ways")
        for n in range(len(newer)):
            refused(9, f"{n} bytes of a newer card, moved", d.card_to_older, newer[:n])
        refused(10, "a newer card moved to the newer form", d.card_to_newer, newer)
        refused(10, "an older card moved back", d.card_to_older, older)
    minus = card_of(2, True, RIGHT)
    told(d.card_to_newer(d.card_to_older(minus)) == minus, "-0 is kept")
    refused(15, "a stored +0, moved", d.card_to_older, stored_zero(minus))
    twelve = bytes([3 << 6 | 12 << 2]) + bytes((6 + 12 * 320 + 132 + 7) // 8 - 1)
    refused(16, "twelve components", d.card_to_older, twelve)
    refused(11, "twelve components and a byte", d.card_to_older, twelve + b"\0")


def stored_zero(card):
    """A newer card of two whose pair has a stored +0: its two bits are the last before the filling."""
    bits = "".join(format(b, "08b") for b in card)[: 6 + 2 * 322] + "1" + "0" * 65
    bits += "0" * (-len(bits) % 8)
    return bytes(int(bits[k:k + 8], 2) for k in range(0, len(bits), 8))


def desk():
    s = d.QuantumSet(**RIGHT)
    one = d.QuantumSet(m=[1], sigma=[3], epsilon_k=[30], lr=[12], la=[6], mass=[1e-26], order=[1], k_ij=[0], l_ij=[0])
    desk, idle, worked = d.Desk(), ("idle", None, None, None), ("worked", None, None, None)
    told(desk.serve() == idle, "a new desk is idle")
    told(desk.submit(s, **STATE, non_additive=True) == 0 and desk.submit(one, 25.0, [1], [0.01]) == 1, "places from the lowest")
    told(desk.serve() == worked and desk.serve() == ("finished", 1, 0, one.energies(one.table(25.0), 25.0, [1], [0.01])), "one component is finished in its only unit")
    told(desk.submit(one, 25.0, [1], [0], True) == 1 and desk.serve() == worked and desk.serve() == ("finished", 1, 7, None), "a query that is finished with 7")
    told(desk.serve() == worked and desk.serve() == ("finished", 0, 0, s.energies(s.table(30.0), **STATE, non_additive=True)), "two components")
    told([desk.submit(s, **STATE) for _ in range(16)] == [*range(16)], "sixteen places")
    for n in [0, 1, 3, 4, 12, 13, 576]:
        for name in ("fractions", "densities"):
            refused(1, f"{name} of {n} at a full desk", desk.submit, s, **{**STATE, name: [0.1] * n})
    for bad in (math.nan, math.inf, 0.5, 2001.0, -30.0):
        refused(2, f"temperature {bad} at a full desk", desk.submit, s, **{**STATE, "temperature": bad})
    refused(17, "a seventeenth query", desk.submit, s, **STATE)
    wrong("no set", desk.submit, d.MieSet(**MIE), **STATE)
    wrong("a list of texts", desk.submit, s, 30.0, ["a", "b"], [0.01, 0.01])
    desk.begin()
    told(desk.serve() == idle, "a desk begun anew is idle")


lengths()
indexes()
numbers()
cards()
written_cards()
moved_cards()
desk()
print(f"{passed} passed, {failed} failed")
sys.exit(failed != 0)
