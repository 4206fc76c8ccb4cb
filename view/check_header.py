"""The words of the answers and the grounds, and the names of the registers, read from include/saturn.h."""
import re


def words_of(header, function, prefix):
    """Number to words, for one of the two functions of the header that put a number in words."""
    numbers = dict(re.findall(r"\b(SATURN_\w+) = (\d+)\b", header))
    body = header.split(function, 1)[1].split("default:", 1)[0]
    cases = re.findall(r'case (SATURN_\w+): return "([^"]*)";', body)
    return {int(numbers[name]): words for name, words in cases if name.startswith(prefix)}


def registers_of(header):
    """Name to first and last address. Outputs and inputs are left out: they are known by their places."""
    found = {}
    for name, address, comment in re.findall(r"SATURN_REG_(\w+) = 0x([0-9A-F]{2}),?[ ]*(?:/\*([^*]*)\*/)?", header):
        size = re.match(r" (\d+) bytes", comment)
        first = int(address, 16)
        if name not in ("OUTPUTS", "INPUTS"):
            found[name] = (first, first + (int(size[1]) if size else 1) - 1)
    return found


class Header:
    """What the page takes from the header."""

    def __init__(self, path):
        with open(path, encoding="utf-8") as file:
            header = file.read()
        self.answers = words_of(header, "saturn_answer_text", "SATURN_")
        self.grounds = words_of(header, "saturn_ground_text", "SATURN_GROUND_")
        self.registers = registers_of(header)
        if sorted(self.answers) != list(range(23)) or sorted(self.grounds) != list(range(6)) or len(self.registers) != 22:
            raise ValueError(f"{path}: not 23 answers, 6 grounds and 22 named registers")
