"""A release as an extension of VS Code: editors/vscode, and beside it what its language server and its debugger start, in the folder
`zebludor`. It is what `vsce package` makes: a zip with a manifest, a table of types, and the extension below `extension`."""
from __future__ import annotations

import io
import json
import zipfile
from html import escape

EXTENSION, INSIDE = 'editors/vscode/', 'zebludor'
# What neither the server nor the debugger reads.
LEFT_OUT = ('c/', 'docs/book.', 'lib/', 'stored/zebludor.wasm', 'web/', 'SHA256SUMS')
HEADER = 'c/zebludor.h'  # by which the stored library is asked
PLATFORM = 'linux-x64'  # as VS Code calls it
TIME = (1980, 1, 1, 0, 0, 0)
TYPES = {'json': 'application/json', 'vsixmanifest': 'text/xml'}
OTHERWISE = 'application/octet-stream'
MANIFEST = """<?xml version="1.0" encoding="utf-8"?>
<PackageManifest Version="2.0.0" xmlns="http://schemas.microsoft.com/developer/vsx-schema/2011">
  <Metadata>
    <Identity Language="en-US" Id="{name}" Version="{version}" Publisher="{publisher}" TargetPlatform="{platform}"/>
    <DisplayName>{displayName}</DisplayName>
    <Description xml:space="preserve">{description}</Description>
    <Categories>{categories}</Categories>
    <Properties>
      <Property Id="Microsoft.VisualStudio.Code.Engine" Value="{engine}"/>
      <Property Id="Microsoft.VisualStudio.Code.ExtensionKind" Value="workspace"/>
    </Properties>
    <License>extension/LICENSE.txt</License>
  </Metadata>
  <Installation>
    <InstallationTarget Id="Microsoft.VisualStudio.Code"/>
  </Installation>
  <Dependencies/>
  <Assets>
    <Asset Type="Microsoft.VisualStudio.Code.Manifest" Path="extension/package.json" Addressable="true"/>
  </Assets>
</PackageManifest>
"""

Files = dict[str, tuple[bytes, bool]]


def name(version: str) -> str:
    """The extension's file name."""
    return f'zebludor-{version}-{PLATFORM}.vsix'


def manifest(package: dict[str, object]) -> bytes:
    """The manifest, which says of the extension what its package.json says."""
    engines, categories = package['engines'], package['categories']
    assert isinstance(engines, dict) and isinstance(categories, list)
    said = {key: escape(str(value)) for key, value in package.items()}
    return MANIFEST.format(**said | {'engine': escape(engines['vscode']), 'categories': ','.join(categories), 'platform': PLATFORM}).encode()


def types(paths: list[str]) -> bytes:
    """The table of types, which has to name each ending of a file and each file without one."""
    endings = sorted({path.rpartition('.')[2] for path in paths if '.' in path.rpartition('/')[2]})
    others = [path for path in paths if '.' not in path.rpartition('/')[2]]
    rows = [f'<Default Extension=".{escape(each)}" ContentType="{TYPES.get(each, OTHERWISE)}"/>' for each in endings]
    rows += [f'<Override PartName="/{escape(each)}" ContentType="{OTHERWISE}"/>' for each in others]
    head = '<?xml version="1.0" encoding="utf-8"?>\n<Types xmlns="http://schemas.openxmlformats.org/package/2006/content-types">'
    return '\n'.join([head, *rows, '</Types>\n']).encode()


def made(found: Files, version: str) -> bytes:
    """The extension of a release's files, with its version."""
    own = {path.removeprefix(EXTENSION): each for path, each in found.items() if path.startswith(EXTENSION)}
    package = json.loads(own['package.json'][0]) | {'version': version}
    own['package.json'] = json.dumps(package, indent=2).encode() + b'\n', False
    own['LICENSE.txt'], own['README.md'] = found['LICENSE-MIT'], found['editors/README.md']
    own |= {f'{INSIDE}/{path}': each for path, each in found.items() if path == HEADER or not path.startswith(LEFT_OUT)}
    files: Files = {f'extension/{path}': each for path, each in sorted(own.items())}
    whole = {'extension.vsixmanifest': (manifest(package), False)} | files
    whole['[Content_Types].xml'] = types(list(whole)), False
    written = io.BytesIO()
    with zipfile.ZipFile(written, 'w') as to:
        for path, (octets, is_program) in whole.items():
            entry = zipfile.ZipInfo(path, TIME)
            entry.create_system, entry.external_attr = 3, (0o100755 if is_program else 0o100644) << 16
            to.writestr(entry, octets, zipfile.ZIP_DEFLATED, 9)
    return written.getvalue()
