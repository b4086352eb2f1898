#!/usr/bin/env python3
"""Puts a page together, of src/ and dvg.wasm:

    assemble.py NAME <BUILT    prints src/NAME.html with what its remarks ask for

BUILT are the constants that the page needs beside its modules, as JavaScript. The remarks are:

    <!--PART FILE-->              a part of HTML
    <!--STYLE FILE..-->           styles, one after the other
    <!--SCRIPT FILE-->            a module, after those that it imports
    <!--STYLE HASH-->             their digests, for the content security policy, which lets
    <!--SCRIPT HASH-->            nothing else in

Each module is a function of its own, which gives the names that others import: so a private name is
private. Its remarks are left out, but not their lines: so its code has the line of its file,
counted from the remark that names it. A name that is imported and not exported, and an id that a
module asks for and the page hasn't, are refused.
"""
import base64
import hashlib
import os
import re
import subprocess
import sys

PAGE = os.path.dirname(os.path.realpath(__file__))
IMPORT = re.compile(r"^import (\{[^}]*\}) from '\./([a-z]+)\.mjs';\n", re.M)
GIVEN = re.compile(r'^export (?:async )?(?:const|class|function) (\w+)(.*)', re.M | re.A)
# More constants of one line.
MORE = re.compile(r', ([A-Z][A-Z0-9_]+) = ')
# A remark that has its lines for itself.
REMARK = re.compile(r'^ *(?:/\*.*?\*/|//[^\n]*)$', re.M | re.S)
BUILT = re.compile(r'^const (\w+) = ', re.M)


def source(name):
    with open(f'{PAGE}/src/{name}', encoding='utf-8') as file:
        return file.read()


def wasm():
    """dvg.wasm, packed, in base64. GNU's gzip packs to the same bytes on each machine."""
    packed = subprocess.run(['gzip', '-9nc', f'{PAGE}/dvg.wasm'], check=True, capture_output=True)
    return base64.b64encode(packed.stdout).decode()


def given_by(name, text):
    """The names that a module exports; of what is built those of all its constants."""
    if name == 'built':
        return set(BUILT.findall(text))
    return {given for first, rest in GIVEN.findall(text) for given in [first, *MORE.findall(rest)]}


def collect(name, built, texts, wanted):
    """Adds the modules that one stands on, and it, each once and by its name, to `texts`; and to
    `wanted` the names that are imported of each."""
    if name in texts:
        return
    text = built if name == 'built' else source(f'{name}.mjs')
    for names, other in IMPORT.findall(text):
        collect(other, built, texts, wanted)
        imported = re.findall(r'\w+', names)
        missing = set(imported) - given_by(other, texts[other])
        if missing:
            sys.exit(f'assemble.py: {other}.mjs gives {name}.mjs no {", ".join(sorted(missing))}')
        wanted.setdefault(other, set()).update(imported)
    texts[name] = text


def lines_of(remark):
    return '\n' * remark[0].count('\n')


def module_of(name, text, wanted):
    """A module as a function: its imports, its code, and what it gives."""
    imports = ''.join(f'const {names} = ${other};\n' for names, other in IMPORT.findall(text))
    code = re.sub(r'^export ', '', REMARK.sub(lines_of, IMPORT.sub('', text)), flags=re.M).rstrip()
    given = f'return {{ {", ".join(sorted(wanted))} }};\n' if wanted else ''
    return f'const ${name} = (() => {{ // {name}.mjs\n{imports}{code}\n{given}}})();'


def script_of(name, built):
    texts, wanted = {}, {}
    collect(name.removesuffix('.mjs'), f"{built}const WASM = '{wasm()}';\n", texts, wanted)
    script = '\n\n'.join(module_of(one, text, wanted.get(one)) for one, text in texts.items())
    return script.replace('</script', '<\\/script')


def check_ids(page, script):
    """Each id that a module asks for by its name is that of an element."""
    missing = set(re.findall(r"\bbyId\('([\w-]+)'\)", script)) - set(
        re.findall(r' id="([\w-]+)"', page))
    if missing:
        sys.exit(f'assemble.py: no element is called {", ".join(sorted(missing))}')


def digest_of(text):
    return f'sha256-{base64.b64encode(hashlib.sha256(text.encode()).digest()).decode()}'


def page_of(name, built):
    """The page whose frame is src/NAME.html."""
    text = re.sub(r'<!--PART (\S+)-->\n', lambda found: source(found[1]), source(f'{name}.html'))
    style = ''.join(map(source, re.search(r'<!--STYLE (.*\.css)-->', text)[1].split()))
    script = script_of(re.search(r'<!--SCRIPT (.*\.mjs)-->', text)[1], built)
    if name == 'page':  # a game alone leaves parts of its modules unused
        check_ids(text, script)
    text = text.replace('<!--STYLE HASH-->', digest_of(style))
    text = text.replace('<!--SCRIPT HASH-->', digest_of(script))
    text = re.sub(r'<!--STYLE (.*\.css)-->', lambda _: style, text)
    return re.sub(r'<!--SCRIPT (.*\.mjs)-->', lambda _: script, text)


if __name__ == '__main__':
    sys.stdout.buffer.write(page_of(sys.argv[1], sys.stdin.buffer.read().decode()).encode())
