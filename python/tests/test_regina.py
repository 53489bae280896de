"""Both ways between Regina and trinorm; left out where this Python has no module regina."""
import unittest
from typing import Tuple

import trinorm
from trinorm.options import Coords
from trinorm.regina_surfaces import vertex_surfaces

try:
    import regina
except ImportError:
    regina = None

COORDS: Tuple[Coords, ...] = ("standard", "quad", "octagon")
SIGNATURES = ("bkaagj", "bkaajj", "cPcbbbiht", "gLLPQccdfeefqffaqnw", "gLvQQadefeffbaddcjo")


@unittest.skipIf(regina is None, "this Python has no module regina")
class Regina(unittest.TestCase):
    def test_triangulations(self) -> None:
        for signature in SIGNATURES:
            theirs = regina.Triangulation3.fromIsoSig(signature)
            self.assertEqual(trinorm.sig(theirs), signature)
            self.assertTrue(trinorm.from_regina(theirs).to_regina() == theirs)
            self.assertTrue(trinorm.to_regina(signature) == theirs)
        ball = regina.Triangulation3()
        ball.newTetrahedron()
        self.assertEqual(str(trinorm.from_regina(ball)), "tri 1\n- - - -\n")

    def test_lists(self) -> None:
        for signature in SIGNATURES:
            for coords in COORDS:
                self.assertEqual(trinorm.surfaces(signature, coords), vertex_surfaces(signature, coords))

    def test_surfaces(self) -> None:
        theirs = regina.Triangulation3.fromIsoSig("bkaagj")
        octagon = (0, 0, 1, 1, 0, 0, 0, 1, 0, 0)
        surface = trinorm.normal_surface(theirs, octagon, "octagon")
        self.assertEqual(trinorm.vector_of(surface, "octagon"), octagon)
        self.assertEqual(int(str(surface.eulerChar())), trinorm.describe(theirs, [surface], "octagon")[0].euler)
        for it in regina.NormalSurfaces(theirs, regina.NS_STANDARD):
            self.assertEqual(trinorm.verify(theirs, [it])[0].kind, "solution")

    def test_isomorphisms(self) -> None:
        one, other = (regina.Triangulation3.fromIsoSig(it) for it in ("bkaagn", "bkaagj"))
        found = trinorm.same(one, other)
        assert found is not None
        self.assertTrue(found.to_regina().apply(one) == other)

    def test_groups(self) -> None:
        group = trinorm.pi1("cPcbbbiht").to_regina()
        theirs = regina.Triangulation3.fromIsoSig("cPcbbbiht").group()
        self.assertEqual(str(group.abelianisation()), str(theirs.abelianisation()))
        self.assertEqual((group.countGenerators(), group.countRelations()), (3, 2))

    def test_covers(self) -> None:
        cover = trinorm.cover(["0:1203 0:2013 0:0231 0:0312"])
        self.assertEqual(cover.to_regina().isoSig(), "cPcbbbiht")

    def test_packets_and_lists(self) -> None:
        packet = regina.PacketOfTriangulation3(regina.Triangulation3.fromIsoSig("bkaagj"))
        self.assertEqual(trinorm.sig(packet), "bkaagj")
        self.assertEqual(trinorm.sig(regina.SnapPeaTriangulation(regina.Triangulation3.fromIsoSig("cPcbbbiht"))), "cPcbbbiht")
        surfaces = regina.NormalSurfaces(packet, regina.NS_STANDARD)
        self.assertEqual([it.kind for it in trinorm.verify(packet, surfaces)], ["solution"] * 2)
        with self.assertRaises(trinorm.BadArgument):
            trinorm.verify(packet, surfaces[0])


if __name__ == "__main__":
    unittest.main()
