"""Tables for measurements, as signatures: from a few tetrahedra grown by 2-3 moves at triangles drawn from fixed seeds.
Those of CLOSED and HYPERBOLIC have one vertex, whose link is a sphere (these are grown from a filling of the figure-eight
knot's complement); the link of the one vertex of each of IDEAL is a torus; those of BOUNDARY are grown from a layered
solid torus."""
CLOSED = {
    6: "gLLPQccdfeefqffaqnw",
    7: "hLvAQkbefggefgaauaalfv",
    8: "iLLMAMcccdfefghhqfvadfqao",
    9: "jLLLMPQcddeghghiiasbpoqfarn",
    10: "kLLwPAMkccdhehgijijajvsnsjmqgk",
    11: "lLLAzPzQcbcdeeghijkjkmjvmgoaccefg",
    12: "mLLAwLwQQbedefhjkijkllapfatetwvcflv",
    13: "nLLLvAzQQkbddgjilmmiklkmabfcqxtqeckjvr",
    14: "oLLLLvAMQQcbedhklimnnjklmnapfbaaflxxkkbgs",
    15: "pLLMvLzQPPQccdfijkkjmlmonnoabvxqiffvnoohhcf",
    16: "qLMvvzzAQMQkacdgmmnjlolkppnopbgpdcsagvmjoamdcc",
    17: "rLMvAzLvPMQQcacdefhikommmnqqqppbgmgbaocrcwwouuudc",
    18: "sLLMzvAPwMAPQacdegihlkknppoqqrrrbsaclvcaosaaaneulow",
    20: "uLLMLwvAwwAAQQcbdedhhimnlponrptstrstavafaagrpgdiuocmolbvp",
}

HYPERBOLIC = {
    12: "mvLALwPQQdcfhgjljiklklokqqavmffitiv",
    13: "nLvLAwwQQkbefeghljkmmlmlelalfruuldsnnn",
    14: "oLLAvLwMQQcbcedgkikmlknnmnajhffaorercpqmf",
    15: "pLLLLPzLQMQccfgfhkmlnlmnoootnagfkaiivbjjpeu",
    16: "qLLvLzQvAQQkcdghgiholnpmmoppoargscrvhucbsbvrgb",
    17: "rLvLwwLzAQQQcbdefkmkjqkpqponopqafmfuelqonrsrjcofb",
    18: "sLvLPvwMMPPQQbdhgkhljpmoqnrorqprafdgaflpowjdftvaugf",
    20: "uLvLMLvLvQQMQQcbdghgppklnmrnrsttsstraftvgucbcgcsgriuuitmf",
}

IDEAL = {
    6: "gLvQQadefeffbaddcjo",
    7: "hLLAAkbcedefgglsxsmcag",
    8: "iLLLAQcbcegffhhhagpttgldd",
    9: "jLLvQMQcdfhhghgiiirqinnksig",
    10: "kLLMzAAkccdeghghijjabvlwaresaj",
    11: "lLAwzLMQcaccdfhjikkjkbggtonwvaafx",
    12: "mLLLwLMQQadgfhjlkjjkllbaagiaankgfgj",
    13: "nLLLPLPLQkbedghigkmllmlmaafdoxgtanwhvx",
    14: "oLLLvLQQzQcacfhglikilkmmnnnkgivxmckjjamfn",
    15: "pLvLMvQPAMQbdhgjihmjlmloonodflgavoulagcatfo",
    16: "qLLLvvLQPQQkbcenkoljilkmopnppacqpdhtqkgvcckbrk",
    17: "rLLLMvvMQzQQccdgeflmjknpmmpooqqhsapbhnfngukfivcnb",
    18: "sLLALvLPwMQAQcddefmjjjlpmnooqrrravvavgvwcoibagffaaa",
}

BOUNDARY = {
    12: "mHLfzPPPMcbcgghhijkkllhgaxaarveagb",
    13: "nLgvwwMjQQacfgilkjkmlmmbgvutavjklaev",
    14: "oLLLLrPPAIkbedhjjlilmmlnnaafvuauohpjbaf",
    15: "pLLLwLvQPQGcbddfkkimjnllmooabfttgcsbffkgdc",
    16: "qLfvvwLQPQQIcgknmmmoplokpnnpagnlllldtadcahvv",
    17: "rHvrMwPzzzQQkbeehjilmkqmnnopqqaffqiewqghpsjcvsb",
    18: "sLLAwLLLQjzjQcbddeejlijkmnorqrqrabcuevxvcaojuvsrfo",
}

# Tables that are slow in the default order, the worst of some eight hundred that were drawn, grown, renumbered and climbed.
# They stand as rows, since the time depends on how the tetrahedra are numbered. Each is ideal and non-orientable.
SLOW = {
    8: """tri 8
7:2013 0:1302 2:2103 0:2031
3:0213 5:3201 6:0231 7:2301
0:2103 4:2031 3:1023 6:0312
1:0213 6:1032 2:1023 5:2130
2:1302 4:1320 7:0231 4:3021
3:3102 7:1023 1:2310 6:3201
3:1032 5:2310 2:0231 1:0312
5:1023 1:2301 0:1203 4:0312
""",
    9: """tri 9
4:1320 1:1320 7:2130 8:3102
3:3210 5:0312 2:3012 0:3021
3:2031 1:1230 6:3102 8:1203
7:2103 6:3201 2:1302 1:3210
6:1302 0:3021 5:3012 8:0231
7:1230 4:1230 6:2031 1:0231
2:2130 4:2031 3:2310 5:1302
8:0123 5:3012 3:2103 0:3102
7:0123 4:0312 0:2130 2:2013
""",
    10: """tri 10
1:2031 0:0321 4:2031 0:0321
8:2103 3:1320 0:1302 5:0312
7:1302 9:2310 3:1320 8:3210
7:3120 6:0123 2:3021 1:3021
8:1023 6:1302 6:1302 0:1302
9:1320 6:1203 1:0231 7:1230
4:2031 3:0123 5:2013 4:2031
5:3012 2:2031 8:1032 3:3120
2:3210 4:1023 1:2103 7:1032
9:2031 5:3021 9:1302 2:3201
""",
}

# with more than 50,000 vertex surfaces: a handlebody, and a table that `make` grows from the sphere
LARGE = {
    13: "nHbfjbqryeiKabfjlmttisl",
    24: "yLLvLAwwwAALAMQMQaeheiikjolrrpuqsrvtwvuxxxbavgaaxoroaalapcssbxvcurr",
}
