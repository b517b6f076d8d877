"""The tool stream, and that `live` writes while its stream is open."""
import os
import select
import subprocess

from tests.case import CPGC, EXAMPLES, PAIR, SCENARIO, Case


class Stream(Case):
    def test_mistakes(self) -> None:
        pack = self.file("pair.pack", self.cpgc("compile", self.file("pair.toml", PAIR)).stdout)
        no_play = f"no play of {pack} on standard input: cpgc play GRAPH PACK SCENARIO --turns 0 | stream PACK NODE"
        play = self.cpgc("play", str(self.folder / "pair.toml"), pack, self.file("s.toml", SCENARIO), "--turns", "0").stdout
        wanted = (EXAMPLES / "pair-N2.stream").read_bytes().decode("latin-1")
        self.assertEqual(self.of("stream", pack, "N2", stdin=play), wanted)
        broken = self.file("broken.pack", "CPGT")
        for words, stdin, said in [
            ([pack, "N3"], play, f"{pack}: no node is named N3; its nodes are N1, N2"),
            ([broken, "N2"], play, f"{broken}: no pack: it ends too early, after 4 bytes"),
            ([pack, "N2"], b"", no_play),
            ([pack, "N2"], b"0 N1 start A\n-3 N1 end A faults 0\nx\n", no_play),
            ([pack, "N2"], play.replace(b"80 N1 send e0", b"80 N1 send e0 x\n80").replace(b"faults 1", b"faults 3"), no_play),
        ]:
            with self.subTest(said):
                self.assertEqual(self.run_tool("stream", *words, stdin=stdin), (1, "", f"stream: {said}\n"))


class Live(Case):
    def test_lines_come_while_the_stream_is_open(self) -> None:
        pack = self.file("pair.pack", self.cpgc("compile", self.file("pair.toml", PAIR)).stdout)
        stream = (EXAMPLES / "pair-N2.stream").read_bytes()
        with subprocess.Popen([CPGC, "live", pack, "N2", "/dev/stdin"], stdin=subprocess.PIPE, stdout=subprocess.PIPE) as node:
            assert node.stdin and node.stdout
            # the turn at 90 comes before what is told of 105, and its line before anything more is told
            node.stdin.write(stream[:28])
            node.stdin.flush()
            self.assertTrue(select.select([node.stdout], [], [], 20)[0], "no line came")
            self.assertEqual(os.read(node.stdout.fileno(), 1000), b"90 start B\n")
            # that nothing follows the close is known at the end of the stream
            node.stdin.write(stream[28:])
            node.stdin.close()
            self.assertEqual(node.stdout.read(), b"closed 105\n")
