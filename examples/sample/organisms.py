"""The strains of the sample library: organisms that are found in water systems, with invented profiles.

A code's first digit is the organism's group, the second the genus in the group, the
third the species in the genus. A genus lies about the centre of its group, and a
species about its genus, so that related organisms have profiles near each other.
"""
WELLS = 8

# In order of approval.
ORGANISMS = [(int(line[:3]), line[4:]) for line in """\
111 Pseudomonas aeruginosa
221 Ralstonia pickettii
131 Stenotrophomonas maltophilia
211 Burkholderia cepacia
411 Legionella pneumophila
611 Mycobacterium chelonae
511 Sphingomonas paucimobilis
311 Delftia acidovorans
112 Pseudomonas fluorescens
121 Acinetobacter baumannii
521 Methylobacterium radiotolerans
531 Brevundimonas diminuta
711 Elizabethkingia meningoseptica
612 Mycobacterium fortuitum
222 Ralstonia insidiosa
331 Achromobacter xylosoxidans
412 Legionella anisa
613 Mycobacterium gordonae
231 Cupriavidus pauculus
113 Pseudomonas putida
151 Serratia marcescens
321 Comamonas testosteroni
212 Burkholderia multivorans
721 Chryseobacterium indologenes
532 Brevundimonas vesicularis
614 Mycobacterium mucogenicum
223 Ralstonia mannitolilytica
141 Aeromonas hydrophila
413 Legionella bozemanae
122 Acinetobacter lwoffii
213 Burkholderia cenocepacia
522 Methylobacterium mesophilicum
414 Legionella micdadei
615 Mycobacterium avium
232 Cupriavidus metallidurans
512 Sphingomonas koreensis
214 Burkholderia vietnamiensis
415 Legionella dumoffii
233 Cupriavidus gilardii
215 Burkholderia contaminans
""".splitlines()]

# The centre of each group. Groups 2 and 3 lie near each other, and so do 1 and 4.
CENTRES = {
    1: (980, 210, 340, 850, 120, 560, 730, 260),
    2: (190, 930, 420, 150, 1040, 640, 230, 760),
    3: (120, 830, 540, 260, 900, 720, 350, 660),
    4: (820, 420, 590, 700, 300, 380, 950, 440),
    5: (240, 310, 1060, 890, 280, 1010, 160, 680),
    6: (1050, 980, 130, 220, 710, 170, 330, 1080),
    7: (310, 1060, 920, 640, 180, 270, 1020, 940),
}
# How far a well of a genus may lie from its group's centre, and one of a species from its genus.
GENUS_SPREAD, SPECIES_SPREAD = 55, 20
SEED = 1


def drawn(seed):
    """Whole numbers from 0 to 65,535 without end. Python's own generator may change with its version."""
    while True:
        seed = (seed * 1103515245 + 12345) % 2**31
        yield seed >> 15


def about(profile, spread, draw):
    return [value + next(draw) % (2 * spread + 1) - spread for value in profile]


def profiles():
    """The profile of each code. They are drawn in ascending order of code, so that the order of approval does not change them."""
    draw = drawn(SEED)
    genera, species = {}, {}
    for code, _ in sorted(ORGANISMS):
        group, genus = code // 100, code // 10
        if genus not in genera:
            genera[genus] = about(CENTRES[group], GENUS_SPREAD, draw)
        species[code] = about(genera[genus], SPECIES_SPREAD, draw)
    return species


PROFILES = profiles()
# Pairs of code and profile, in order of approval.
STRAINS = [(code, PROFILES[code]) for code, _ in ORGANISMS]
