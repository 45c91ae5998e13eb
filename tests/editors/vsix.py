# A .vsix of the extension for VS Code: its files are those of tools/editors, and what it names is in it. The last line is
# 'N passed, M failed'.
import json
import os
import re
import sys
import zipfile
from xml.etree import ElementTree

counts = {'passed': 0, 'failed': 0}


def want(name, wanted, found):
    counts['passed' if wanted == found else 'failed'] += 1
    if wanted != found:
        print(f'FAILED: {name}: wanted\n{wanted}\nfound\n{found}')


# The bytes of each file of these folders, by its name in the extension.
def sources(editors):
    files = {}
    for folder, place in (('vscode', 'extension/'), ('textmate', 'extension/syntaxes/')):
        for name in os.listdir(f'{editors}/{folder}'):
            if name.endswith(('.js', '.json', '.md')):
                with open(f'{editors}/{folder}/{name}', 'rb') as file:
                    files[place + name] = file.read()
    return files


# The files that package.json and other files name.
def named(package, files):
    contributes = package['contributes']
    paths = [package['main'], *(one['path'] for one in contributes['grammars']),
             *(one['configuration'] for one in contributes['languages'])]
    for text in files.values():
        paths += [f'{path}.js' for path in re.findall(r"require\('(\./\w+)'\)", text.decode())]
    return {'extension/' + path.removeprefix('./') for path in paths}


def main(path, top):
    with zipfile.ZipFile(path) as archive:
        want('each file is whole', None, archive.testzip())
        files = {name: archive.read(name) for name in archive.namelist()}
    own = {'extension.vsixmanifest', '[Content_Types].xml'}
    wanted = sources(f'{top}/tools/editors')
    want('the files', sorted({*wanted, *own}), sorted(files))
    want('their bytes', [], [name for name, text in wanted.items() if files.get(name) != text])
    package = json.loads(files['extension/package.json'])
    want('what is named is there', set(), named(package, wanted) - set(files))

    manifest = ElementTree.fromstring(files['extension.vsixmanifest'])
    space = {'v': 'http://schemas.microsoft.com/developer/vsx-schema/2011'}
    identity = manifest.find('v:Metadata/v:Identity', space).attrib
    want('its identity', [package[name] for name in ('name', 'version', 'publisher')],
         [identity[name] for name in ('Id', 'Version', 'Publisher')])
    want('its names', [package['displayName'], package['description']],
         [manifest.find(f'v:Metadata/v:{name}', space).text for name in ('DisplayName', 'Description')])
    want('its categories', package['categories'], manifest.find('v:Metadata/v:Categories', space).text.split(','))
    properties = {one.get('Id'): one.get('Value') for one in manifest.iterfind('v:Metadata/v:Properties/v:Property', space)}
    want('its VS Code', [package['engines']['vscode'], package['extensionKind']],
         [properties[f'Microsoft.VisualStudio.Code.{name}'] for name in ('Engine',)]
         + [[properties['Microsoft.VisualStudio.Code.ExtensionKind']]])
    want('its assets', set(), {one.get('Path') for one in manifest.iterfind('v:Assets/v:Asset', space)} - set(files))
    types = ElementTree.fromstring(files['[Content_Types].xml'])
    want('the types of its files', {os.path.splitext(name)[1] for name in files} - {'.xml'},
         {one.get('Extension') for one in types})
    print(f'{counts["passed"]} passed, {counts["failed"]} failed')


main(*sys.argv[1:])
