"""The words of completion, rlwrap and Vim are those of the documents and of the reference."""

import re
import subprocess

from commands import COMMANDS as KNOWN
from newton import words
from playing import TOOLS, TOP, Playing
from queries import SLOTS, TAG_SLOTS


def read(name: str) -> str:
    return (TOOLS / name).read_text()


class Words(Playing):
    def test_commands_are_those_of_the_list_and_of_the_reference(self) -> None:
        document = (TOP / "docs/COMMANDS.md").read_text()
        listed: dict = {}
        for command in re.findall(r"^\| \[`(.*?)`\]", document, re.MULTILINE):
            name, _, form = command.partition(" ")
            listed.setdefault(name, []).append(form)
        wanted = {name: sorted(forms) for name, forms in listed.items()}
        self.assertEqual({name: sorted(forms) for name, forms in words.COMMANDS.items()}, wanted)
        self.assertEqual({it.encode() for it in words.COMMANDS}, set(KNOWN))

    def test_modes_are_those_of_the_documents(self) -> None:
        modes = (TOP / "docs/COMMANDS.md").read_text().partition("\n## Modes\n")[2].partition("\n\nAny")[0]
        listed = re.findall(r"^- `([a-z]+)((?: [A-Z.]+)*)`", modes, re.MULTILINE)
        self.assertEqual({name: form.strip() for name, form in listed}, words.MODES)

    def test_query_words_are_those_of_the_reference(self) -> None:
        known = {it.decode() for it in (*SLOTS, *TAG_SLOTS, b"pathExpr")}
        self.assertEqual({*words.QUERY}, known)

    def test_each_file_has_these_words(self) -> None:
        self.assertEqual(read("newton.words").split(), words.typed())
        modes = re.search('modes="(.*)"', read("completion/newton.bash"))[1]
        self.assertEqual(modes.split(), [*words.MODES])
        self.assertEqual(re.findall(r"^ +'([a-z]+):", read("completion/_newton"), re.MULTILINE), [*words.MODES])
        syntax = re.sub(r"\n +\\ ", " ", read("vim/syntax/newton.vim"))
        for group, wanted in (("Command", words.COMMANDS), ("Query", words.QUERY), ("Constant", words.LITERALS)):
            found = re.search(f"^syntax keyword newton{group} (.*)$", syntax, re.MULTILINE)[1].split()
            options = [it for it in found if it in ("contained", "skipwhite") or it.startswith("nextgroup=")]
            self.assertEqual(found[len(options) :], [*wanted])

    def test_bash_completes_modes_and_files(self) -> None:
        (self.folder / "card one").write_bytes(b"")
        script = f"""
            source '{TOOLS}/completion/newton.bash'
            for typed in "newton re" "newton " "newton show c" "newton run c" "newton gen 1 c" "newton gen 1 2 c"; do
                IFS=' ' read -ra COMP_WORDS <<< "$typed"
                [[ $typed == *' ' ]] && COMP_WORDS+=("")
                COMP_CWORD=$((${{#COMP_WORDS[@]}} - 1))
                _newton
                (IFS=,; echo "${{COMPREPLY[*]}}")
            done
        """
        ran = subprocess.run(["bash", "-c", script], capture_output=True, text=True, cwd=self.folder)
        wanted = ["restore", ",".join(words.MODES), "", "card one", "", "card one"]
        self.assertEqual((ran.stdout.splitlines(), ran.stderr), (wanted, ""))
