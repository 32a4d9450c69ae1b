"""The rules of words and the limits of the format of request files, as docs/FORMATS.md states them."""

import re

ID = re.compile(r"[a-z0-9_-]{1,32}")
PATH = re.compile(r"/[!#-~]{0,254}")
DEVICE = re.compile(r"[!-~]{1,255}")
NODE = re.compile(r"[!-~]{1,320}")
WORD = re.compile(r"[!-~]{1,64}")
COMM = re.compile(r"[!#-~]{1,15}")
DIGEST = re.compile(r"[0-9a-f]{64}")
HEX = re.compile(r"-|(?:[0-9a-f]{2}){1,4096}")
SALT = re.compile(r"-|(?:[0-9a-fA-F]{2}){1,256}")

RULES = {
    ID: "1 to 32 of a-z, 0-9, _ and -",
    PATH: "/ and then at most 254 printable characters without blanks and double quotes",
    DEVICE: "1 to 255 printable characters without blanks",
    NODE: "1 to 320 printable characters without blanks",
    WORD: "1 to 64 printable characters without blanks",
    COMM: "1 to 15 printable characters without blanks and double quotes",
    DIGEST: "64 hexadecimal digits in lower case",
    HEX: "a dash, or 2 to 8,192 hexadecimal digits in lower case, an even number",
    SALT: "a dash, or 2 to 512 hexadecimal digits, an even number",
}

KINDS = ("firmware", "module", "kexec-image", "kexec-initramfs", "policy", "x509")
BLOCK_SIZES = (512, 1024, 2048, 4096)

# Sizes are in bytes.
WORKERS = 30
REQUESTS_SIZE = 16_777_216
TEXTS = 256
TEXT_LINES = 1_048_576
VOLUMES = 64
FILES = 1_024
MARKS = 4_096
PHASES = 1_000
DEVICES = 8
DEVICE_SIZE = 16_777_216
COMMANDS = 100_000
HOOKS = 200_000
FETCHED = 1_073_741_824
READ_BACK = 67_108_864
READ_LEAST = 4_096
DATA_BLOCKS = 4_096
INODE = 18_446_744_073_709_551_615
NUMBER = 4_294_967_295
