"""The tool timeline."""
from tests.case import PAIR, SCENARIO, SINGLE, Case


class Timeline(Case):
    """N2 acts first, and Z stands before A in the file."""
    PLAY = b"0 Z start p\n5 A start q\n10 Z end p faults 1\n10 B start r\n20 B end r faults 0\n30 A end q faults 0\nfinish 30\nwaits 0\n"

    def lanes(self, *words: str, stdin: str | bytes = PLAY) -> list[str]:
        return [line.split(" ")[0] for line in self.of("timeline", *words, stdin=stdin).splitlines()[1:]]

    def test_order_of_nodes(self) -> None:
        """Nodes that act at one time do so in the order of the file; for all the file is asked."""
        self.assertEqual(self.lanes(), ["A", "Z", "B"])
        graph = self.file("graph.toml", 'faults = 1\ndeadline = 30\nnode = [{ name = "Z" }, { name = "A" }, { name = "I" }, { name = "B" }]\n')
        self.assertEqual(self.lanes(graph), ["Z", "A", "I", "B"])
        self.assertEqual(self.lanes("--svg", graph)[-1], "</svg>")

    def test_no_play(self) -> None:
        said = "timeline: no play on standard input: cpgc play GRAPH PACK SCENARIO --turns 0 | timeline\n"
        for stdin in b"", b"order A\nworst 3\n", b"0 N1\n", b"5 N1 end A faults 0\nfinish 5\n", b"\xff", b"finish x\n":
            self.of("timeline", status=1, err=said, stdin=stdin)
        graph = self.file("graph.toml", SINGLE)
        self.of("timeline", graph, status=1, err=f"timeline: {graph}: it has no node Z, which the play names\n", stdin=self.PLAY)

    def test_files(self) -> None:
        """Of three files the scenario is played."""
        pair, scenario = self.file("pair.toml", PAIR), self.file("s.toml", SCENARIO)
        pack = self.packed(PAIR, "pair")
        lines = self.cpgc("play", pair, pack, scenario, "--turns", "0").stdout
        self.assertEqual(self.of("timeline", pair, pack, scenario), self.of("timeline", pair, stdin=lines))
        self.of("timeline", pair, pack, status=1, err="timeline: SCENARIO is missing behind PACK (--help says the words)\n")
        self.of("timeline", pair, pair, scenario, status=4, err="cpgc: refused 10 pack 0\n")

    def test_copies(self) -> None:
        """Of a copy of hyper the name is cut from its begin: of 100 letters the first bar has 10, the second 30. Another name stays."""
        stdin = "0 N start 0.0.kalman\n100 N end 0.0.kalman faults 0\n100 N start 0.1.kalman\n400 N end 0.1.kalman faults 0\n400 N start long.name\n410 N end long.name faults 0\nfinish 1000\n"
        self.assertEqual(self.of("timeline", stdin=stdin).splitlines()[1], "N     |kalman---|0.1.kalman-------------------|long.name|")
