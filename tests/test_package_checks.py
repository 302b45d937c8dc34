"""Checks each package by itself: its files, its texts, and what it does where nothing else of the repository is."""

import ast
import base64
import hashlib
import os
import re
import shutil
import subprocess
import sys
import tarfile

import pytest
from machines import ended
from needs import needs
from package_contents import contents, in_folder, inside
from package_tools import BINARIES, CHANGELOG, DATE, DEBIAN, DIST, EVERY_DEBIAN, EVERY_WHEEL, MODULES, NATIVE, PACKAGES, READ, TARGETS, TOP, VERSION, WHEELS
from package_tools import crates_of_kit, told, why_failed
from tally import differing, fail_if

JNA = "/usr/share/java/jna.jar"
DER = "775ae1a53429e41657540f3eed96a76ed2cab8b85994bd7455b0c6903251161d"  # of examples/message.ber
PAGE = 4096  # octets
JAVA_17 = 61  # as a class says it
OLDEST_GLIBC = (2, 17)  # that the name of the wheel promises
# What the start of a program asks for: that of the C library, on ARM with `abort`, and on x86-64 the kit's, which refuses a processor that is too old.
OF_START = {"__libc_start_main", "__cxa_finalize", "abort", "__write", "__x86_get_cpuid_feature_leaf"}
OWN = {*sys.stdlib_module_names, "cms_canon"}  # what a package imports without asking for others

pytestmark = pytest.mark.tree


@pytest.fixture(scope="module")
def found():
    """What is in the packages: each member by its path."""
    if not shutil.which("dpkg-deb"):
        pytest.skip("dpkg-deb is not installed")
    return contents(in_folder(PACKAGES))


def source_of(name):
    return (TOP / name).read_bytes()


def expected_modules(package):
    """Returns the files of a package of Python, and what is packed with them, by where they come from in the repository."""
    folder = TOP / package
    files = [it for it in folder.rglob("*") if it.is_file() and it.parent.name != "__pycache__"]
    return {it.relative_to(folder.parent).as_posix(): it.relative_to(TOP).as_posix() for it in files}


def test_dates(found):
    dates = (f" {int(DATE.timestamp())}", str(DATE.timetuple()[:6]))
    other = sorted(path for path, it in found.items() if it.owner and not it.owner.endswith(dates))
    fail_if(differing([], other[:5]))


@pytest.mark.parametrize("name", EVERY_DEBIAN)
def test_debian(tally, found, name):
    package, expected = EVERY_DEBIAN[name]
    own, documents = inside(found, name), [f"usr/share/doc/{package}/{it}" for it in ("copyright", "changelog.Debian.gz", "changelog.gz")]
    links, modules = expected.get("links", {}), expected_modules(expected["modules"]) if "modules" in expected else {}
    beside = {f"usr/share/doc/{package}/{name}": path for name, path in documents_beside(expected).items()}
    wanted = {**expected["files"], **beside, **links, **dict.fromkeys(documents, ""), **{f"{MODULES}/{path}": source for path, source in modules.items()}}
    there = {path for path, it in own.items() if it.kind != "folder" and "DEBIAN/" not in path and "!" not in path}
    tally.count(f"{name}: files", differing([], sorted({*wanted} ^ there)))
    for path in sorted({*wanted} & there):
        tally.count(f"{name}: {path}", why_not_from(own[path], wanted[path], path in links))
    wrong = [path for path, it in own.items() if "!" not in path and not is_mode_right(path, it)]
    tally.count(f"{name}: modes and owners", differing([], wrong))
    sums = dict(reversed(line.split("  ", 1)) for line in own["DEBIAN/md5sums"].octets.decode().splitlines())
    files = {path for path, it in own.items() if path.startswith("usr/") and it.kind == "file" and "!" not in path}
    tally.count(f"{name}: md5sums", differing([], sorted(files ^ {*sums})))
    scripts = {path.partition("/")[2] for path in own if re.match("DEBIAN/[a-z]", path)} - {"control", "md5sums"}
    tally.count(f"{name}: what dpkg runs and reads", differing(expected.get("control", []), sorted(scripts)))
    control, depends = own["DEBIAN/control"].octets.decode(), expected["depends"].replace("SAME", f"(= {VERSION}-1)")
    lines = (f"Package: {package}", f"Version: {VERSION}-1", f"Architecture: {expected['architecture']}", "Priority: optional")
    for line in (*lines, f"Depends: {depends}", *(f"{field}: {value}" for field, value in expected.get("beside", {}).items())):
        tally.count(f"{name}: {line}", "" if line in control.splitlines() else f"{control!r}")
    tally.count(f"{name}: what is filled in", "there is a place left" if re.search("@[A-Z_]+@", control) else "")
    notices, debian_changelog, changelog = (own[it].octets.decode() for it in documents)
    missing = [it for it in crates_of_kit() if f"\n {it}: a port of " not in notices]
    tally.count(f"{name}: notices of the crates of the kit", differing([], sorted(missing)))
    is_well = debian_changelog.startswith(f"cms-canon ({VERSION}-1) ") and changelog == CHANGELOG
    tally.count(f"{name}: changelog", "" if is_well else "it is not that of the version")


def documents_beside(expected):
    """Returns the names of the README and the documents that a package has, by where they come from."""
    base, *patterns = expected.get("documents", [""])
    return {str(path.relative_to(TOP / base)): str(path.relative_to(TOP)) for pattern in patterns for path in (TOP / base).glob(pattern)}


def why_not_from(member, source, is_link):
    """Compares a file with where it comes from, if it is not made, and a link with where it leads."""
    if is_link:
        return differing(("link", source), (member.kind, member.octets.decode()))
    is_same = not source or member.octets == source_of(source)
    return "" if member.kind == "file" and is_same else f"it is not {source}"


def is_mode_right(path, member):
    """Whether a file, folder or link has the mode that it has to have, is of root, and has the date of the version."""
    is_run = member.kind == "folder" or path.startswith("usr/bin/") or path in ("DEBIAN/postinst", "DEBIAN/prerm")
    mode = {"link": 0o777}.get(member.kind, 0o755 if is_run else 0o644)
    return member.mode == mode and member.owner == f"0:0 root:root {int(DATE.timestamp())}"


def test_texts(tally, found):
    """Checks the texts that are made for Debian: the manual pages and the file for pkg-config."""
    for page in ("cms-canon", "cms-canon-archive"):
        text = found[f"{page}_{VERSION}-1_{DEBIAN[page]['architecture']}.deb!usr/share/man/man1/{page}.1.gz"].octets.decode()
        tally.count(f"manual of {page}", "" if f'.TH {page.upper()} 1 "" "cms-canon {VERSION}" "User Commands"\n' in text else "no version")
    for target in READ["targets"].values():
        libraries, name = target["LIBRARIES"], f"libcms-canon-dev_{VERSION}-1_{target['ARCHITECTURE']}.deb"
        config = found[f"{name}!usr/lib/{libraries}/pkgconfig/cms_canon.pc"].octets.decode()
        version = found[f"{name}!usr/lib/{libraries}/cmake/cms_canon/cms_canon-config-version.cmake"].octets.decode()
        tally.count(f"{name}: CMake", "" if f'set(PACKAGE_VERSION "{VERSION}")\n' in version else "no version")
        page = found[f"{name}!usr/share/man/man3/cms_canon_convert.3.gz"].octets.decode()
        tally.count(f"{name}: manual", "" if f'.TH CMS_CANON_CONVERT 3 "" "cms-canon {VERSION}"' in page else "no version")
        lines = {"prefix=/usr", f"libdir=${{prefix}}/lib/{libraries}", f"Version: {VERSION}"}
        tally.count(f"{name}: pkg-config", differing([], sorted(lines - {*config.splitlines()})))


@needs("readelf")
@pytest.mark.parametrize("target", TARGETS)
def test_symbols(tally, found, target):
    library, package = DIST / target / "libcms_canon.so", f"libcms-canon1_{VERSION}-1_{READ['targets'][target]['ARCHITECTURE']}.deb"
    named = re.search(r"SONAME\).*\[(.*)\]", ended(["readelf", "-dW", library]).output)
    tally.count("name of the library for the loader", differing("libcms_canon.so.1", named and named[1]))
    shlibs = found[f"{package}!DEBIAN/shlibs"].octets
    tally.count("name of the library for dpkg", differing(b"libcms_canon 1 libcms-canon1\n", shlibs))
    listed = re.findall(r"^ (\w+)@Base", found[f"{package}!DEBIAN/symbols"].octets.decode(), re.M)
    shown = ended(["readelf", "--dyn-syms", "-W", library]).output
    tally.count("symbols of the library", differing(sorted(re.findall(r"GLOBAL +DEFAULT +\d+ (\w+)$", shown, re.M)), sorted(listed)))


@needs("readelf")
def test_same_of_the_system(tally):
    """Checks that the binaries for each target ask the system for the same functions."""
    for name in ("cms-canon", "libcms_canon.so"):
        asked = {}
        for target in TARGETS:
            shown = ended(["readelf", "--dyn-syms", "-W", DIST / target / name]).output
            asked[target] = {*re.findall(r" UND (\w+)@GLIBC", shown)} - OF_START
        first = asked[NATIVE]
        tally.count(f"{name}: it asks for functions", "" if {"malloc", "free"} <= first else f"{first}")
        for target, others in asked.items():
            tally.count(f"{name}: what it asks for on {target}", differing(sorted(first), sorted(others)))


def imports_of(file, whole):
    """Returns the names of the modules that a file imports, with a dot before those beside it; without `whole`, those that it imports at once."""
    tree = ast.parse(file.read_text(encoding="utf-8"))
    names = set()
    for node in ast.walk(tree) if whole else tree.body:
        if isinstance(node, ast.Import):
            names |= {it.name.partition(".")[0] for it in node.names}
        elif isinstance(node, ast.ImportFrom) and node.level == 0:
            names.add(node.module.partition(".")[0])
        elif isinstance(node, ast.ImportFrom):
            names |= {"." * node.level + it for it in ([node.module] if node.module else [it.name for it in node.names])}
    return names


def imported_by(package):
    """Returns the modules of others that a package of Python imports."""
    return {name for file in (TOP / package).rglob("*.py") for name in imports_of(file, whole=True) if not name.startswith(".")} - OWN


def imported_at_once(file):
    """Returns the modules of others that are imported with a module of a package, and with those beside it that it imports at once."""
    seen, waiting, names = set(), [file], set()
    while waiting:
        file = waiting.pop()
        seen.add(file)
        for name in imports_of(file, whole=False):
            if not name.startswith("."):
                names.add(name)
                continue
            folder = file.parents[len(name) - len(name.lstrip(".")) - 1]
            beside = folder.joinpath(*name.lstrip(".").split("."))
            waiting += [it for it in (beside.with_suffix(".py"), beside / "__init__.py") if it.exists() and it not in seen]
    return names - OWN


def named_in_control(text, *fields):
    return {*re.findall(r"python3-\w+", " ".join(re.findall(rf"^(?:{'|'.join(fields)}): (.*)$", text, re.M)))}


def test_imports(tally, found):
    """Checks that what the archive imports is named by its package for Debian and by its wheel, and what it begins with is asked for by both; and that
    `cms_canon` has none of it."""
    control, control_of_binding = (
        found[f"{it}_{VERSION}-1_{DEBIAN[it]['architecture']}.deb!DEBIAN/control"].octets.decode() for it in ("cms-canon-archive", "python3-cms-canon")
    )
    metadata_of_binding, metadata = (found[f"{name}!{about(wheel, 'METADATA')}"].octets.decode() for name, wheel in WHEELS.items())
    required, named = {*re.findall(r"^Requires-Dist: (\S+) [^;\n]*$", metadata, re.M)}, {*re.findall(r"^Requires-Dist: (\S+) .*$", metadata, re.M)}
    depends, also = named_in_control(control, "Depends"), named_in_control(control, "Depends", "Recommends", "Suggests")
    modules, at_once = imported_by("archive/cms_canon_archive"), imported_at_once(TOP / "archive" / "cms_canon_archive" / "command.py")
    tally.count("imports at the start", "" if at_once and at_once < modules else f"{at_once}")
    for module in sorted(modules):
        debian, python = READ["modules"].get(module, (None, None))
        is_well = debian in also and python in named
        tally.count(f"import of {module}", "" if is_well else "the package for Debian, or the wheel, does not name where it comes from")
    for module in sorted(at_once):
        debian, python = READ["modules"].get(module, (None, None))
        is_well = debian in depends and python in required
        tally.count(f"import of {module} at the start", "" if is_well else "the package for Debian, or the wheel, can be installed without it")
    of_binding = imported_by("bindings/python/cms_canon")
    tally.count("imports of cms_canon", differing(["cryptography"], sorted(of_binding)))
    words = {word.lower() for module in modules - {"cryptography"} for word in (module, *READ["modules"].get(module, ()))}
    for name, text in (("METADATA", metadata_of_binding), ("control", control_of_binding)):
        found_in_it = {*re.findall(r"[\w-]+", text.lower())}
        tally.count(f"{name} of cms_canon names nothing that only the archive needs", differing([], sorted(words & found_in_it)))


def about(wheel, name):
    return f"{wheel['package']}-{VERSION}.dist-info/{name}"


def test_names_of_wheels():
    fail_if(differing(sorted(EVERY_WHEEL), sorted(it.name for it in PACKAGES.glob("*.whl"))))


def test_names_of_debian():
    fail_if(differing(sorted(EVERY_DEBIAN), sorted(it.name for it in PACKAGES.glob("*.deb"))))


@pytest.mark.parametrize("name", EVERY_WHEEL)
def test_wheel(tally, found, name):
    (target, wheel), own = EVERY_WHEEL[name], {path: it.octets for path, it in inside(found, name).items()}
    modules = expected_modules(wheel["modules"])
    told_of = {about(wheel, it) for it in ("METADATA", "WHEEL", "RECORD", "LICENSE-APACHE", "LICENSE-MIT", *wheel["beside"])}
    tally.count(f"{name}: files", differing([], sorted({*modules, *wheel["made"], *told_of} ^ {*own})))
    for path, source in modules.items():
        tally.count(f"{name}: {path}", "" if own.get(path) == source_of(source) else "it is not that of the repository")
    metadata, said = own[about(wheel, "METADATA")].decode(), own[about(wheel, "WHEEL")].decode()
    fields = {it.partition(": ")[0] for it in metadata.partition("\n\n")[0].splitlines()}
    wanted = {"Name", "Version", "Summary", "Author", "Author-email", "Project-URL", "License", "License-File", "Classifier", "Requires-Python",
              "Provides-Extra", "Requires-Dist", "Description-Content-Type"}
    tally.count(f"{name}: METADATA", differing([], sorted(wanted - fields)))
    tally.count(f"{name}: extras", differing(wheel["extras"], sorted(re.findall(r"^Provides-Extra: (.*)$", metadata, re.M))))
    lines = {f"Name: {wheel['package'].replace('_', '-')}", f"Version: {VERSION}", *wheel["lines"]}
    tally.count(f"{name}: lines of METADATA", differing([], sorted(lines - {*metadata.splitlines()})))
    tag = re.search(r"^Tag: (.*)$", said, re.M)[1]
    tally.count(f"{name}: tag", "" if name.endswith(f"-{tag}.whl") else f"{tag!r}")
    libraries = [path for path in own if path.endswith(".so")]
    tally.count(f"{name}: whether it is Python alone", differing(f"Root-Is-Purelib: {str(not libraries).lower()}", said.splitlines()[2]))
    if "entry" in wheel:
        is_there = wheel["entry"] in own[about(wheel, "entry_points.txt")].decode().splitlines()
        tally.count(f"{name}: entry point", "" if is_there else "it has none")
    lines = [line.split(",") for line in own[about(wheel, "RECORD")].decode().splitlines()]
    sums = {path: base64.urlsafe_b64encode(hashlib.sha256(octets).digest()).decode().rstrip("=") for path, octets in own.items()}
    right = [[path, f"sha256={sums[path]}", str(len(octets))] for path, octets in own.items() if path != about(wheel, "RECORD")]
    tally.count(f"{name}: RECORD", differing(sorted([*right, [about(wheel, "RECORD"), "", ""]]), sorted(lines)))
    for path in libraries:
        library = own[path]
        tally.count(f"{name}: library", "" if library == source_of(f"dist/{target}/libcms_canon.so") else "it is another one")
        versions = {tuple(map(int, it.split(b"."))) for it in re.findall(rb"\bGLIBC_(\d+(?:\.\d+)+)\0", library)}
        newest = max(versions, default=(99,))
        tally.count("glibc that the wheel asks for", "" if newest <= OLDEST_GLIBC else f"{newest}, and its name promises {OLDEST_GLIBC}")


def test_jar(tally, found):
    """Checks what is in the jars, whose classes have to be those of Java 17."""
    sources = {it.relative_to(TOP / "bindings" / "java" / "src").as_posix(): it.read_bytes() for it in (TOP / "bindings" / "java" / "src").rglob("*.java")}
    shared = {f"META-INF/{it}" for it in ("MANIFEST.MF", "LICENSE-APACHE", "LICENSE-MIT", "THIRD-PARTIES")}
    classes, packed, pages = (
        {path: it.octets for path, it in inside(found, f"cms-canon-{VERSION}{kind}.jar").items()} for kind in ("", "-sources", "-javadoc")
    )
    tally.count("sources in a jar", differing([], sorted(({*sources} | shared) ^ {*packed})))
    same = all(packed.get(path) == octets for path, octets in sources.items())
    tally.count("octets of the sources in a jar", "" if same else "they are not those of the repository")
    tally.count("classes in the jar", differing([], sorted({it.replace(".java", ".class") for it in sources} - {*classes})))
    versions = {int.from_bytes(octets[6:8], "big") for path, octets in classes.items() if path.endswith(".class")}
    tally.count("version of the classes", differing({JAVA_17}, versions))
    for target, names in READ["targets"].items():
        library = classes.get(f"{names['JNA']}/libcms_canon.so")
        tally.count(f"library in the jar for {target}", "" if library == source_of(f"dist/{target}/libcms_canon.so") else "it is another one, or none")
    public = {it.replace(".java", ".html") for it in sources if b"\npublic " in sources[it] and it != "module-info.java"}
    tally.count("pages of javadoc", differing([], sorted(public - {*pages})))
    pom = (PACKAGES / f"cms-canon-{VERSION}.pom").read_text(encoding="utf-8")
    manifest = classes["META-INF/MANIFEST.MF"].decode().split("\r\n")
    tally.count("manifest of the jar", "" if f"Implementation-Version: {VERSION}" in manifest and manifest[-2:] == ["", ""] else str(manifest))
    lines = ("<groupId>cmscanon</groupId>", "<artifactId>cms-canon</artifactId>", "<artifactId>jna</artifactId>")
    for line in (f"<version>{VERSION}</version>", *lines):
        tally.count(f"POM: {line}", "" if line in pom else "it is not there")
    tally.count("POM: what is filled in", "there is a place left" if re.search("@[A-Z_]+@", pom) else "")


MODULE_OF_A_USER = {
    "module-info.java": "module user { requires cmscanon; }",
    "user/Main.java": """package user;

import cmscanon.CmsCanon;

class Main {
    public static void main(String[] words) throws Exception {
        System.out.write(CmsCanon.convert(System.in.readAllBytes()));
        System.out.flush();
    }
}
""",
}


@needs("java", "javac", "jar", JNA)
def test_module_of_java(tally, tmp_path):
    """The jar is a module, and works for a module that requires it."""
    jar = PACKAGES / f"cms-canon-{VERSION}.jar"
    described = ended(["jar", "--describe-module", "--file", jar]).output
    is_module = all(it in described for it in ("exports cmscanon\n", "requires com.sun.jna\n")) and "automatic" not in described
    tally.count("the jar is a module", "" if is_module else described)
    for name, text in MODULE_OF_A_USER.items():
        (tmp_path / "src" / name).parent.mkdir(parents=True, exist_ok=True)
        (tmp_path / "src" / name).write_text(text)
    path, classes = f"{jar}:{JNA}", tmp_path / "classes"
    compiled = ended(["javac", "-p", path, "-d", classes, *(tmp_path / "src" / it for it in MODULE_OF_A_USER)])
    tally.count("a module that requires it is compiled", why_failed(compiled))
    words = ["java", "-p", f"{path}:{classes}", "-m", "user/user.Main"]
    done = subprocess.run(words, stdin=(TOP / "examples" / "message.ber").open("rb"), capture_output=True, timeout=60)
    tally.count("a module that requires it runs", differing(DER, hashlib.sha256(done.stdout).hexdigest()) and done.stderr.decode())


# ---- used by themselves

@needs("java", JNA)
def test_jar_alone(tally, tmp_path):
    """Runs the example over the jar alone, beside a library of the same name that is none of ours."""
    jar = tmp_path / "cms-canon.jar"
    shutil.copy(PACKAGES / f"cms-canon-{VERSION}.jar", jar)
    empty = tmp_path / "empty"
    empty.mkdir()
    how = {"env": {**os.environ, "LD_LIBRARY_PATH": str(tmp_path / "front")}}
    if tally.has("gcc", "the jar before other libraries"):
        (tmp_path / "front").mkdir()
        (tmp_path / "none.c").write_text("void cms_canon_convert(void) {}\n", encoding="ascii")
        ended(["gcc", "-shared", "-fPIC", "-o", tmp_path / "front" / "libcms_canon.so", tmp_path / "none.c"])
        done = ended([*java_words(jar, tmp_path, f"-Djna.library.path={tmp_path / 'front'}")], **how)
        tally.count("a library that the property names", told(done) if done.status == 0 else "")
    for name, words in (("without a property", ()), ("with a property for another folder", (f"-Djna.library.path={empty}",))):
        (tmp_path / "java.der").unlink(missing_ok=True)
        done = ended([*java_words(jar, tmp_path, *words)], **(how if not words else {}))
        wrote = (tmp_path / "java.der").read_bytes() if done.status == 0 else b""
        tally.count(f"the jar {name}", why_failed(done) or differing(DER, hashlib.sha256(wrote).hexdigest()))


def java_words(jar, folder, *words):
    return ["java", *words, "-cp", f"{jar}:{JNA}", TOP / "examples" / "Example.java", TOP / "examples" / "message.ber", folder / "java.der"]


@needs("cargo")
def test_crate_alone(tally, tmp_path):
    """Tests and documents the crate where nothing else of the repository is."""
    environment = {**os.environ, "CARGO_TARGET_DIR": str(tmp_path / "target"), "RUSTDOCFLAGS": "-D warnings"}
    environment.pop("CMS_CANON_LIB_DIR", None)
    with tarfile.open(PACKAGES / f"cms-canon-{VERSION}.crate") as archive:
        names = {it.name.partition("/")[2] for it in archive.getmembers()}
        subprocess.run(["tar", "-xzf", archive.name, "-C", tmp_path], check=True)
    wanted = {"LICENSE-APACHE", "LICENSE-MIT", "THIRD-PARTIES", "README.md", "build.rs", *(f"lib/{it}/libcms_canon.a" for it in TARGETS), "examples/message.ber",
              *(it.relative_to(TOP / "bindings/rust").as_posix() for it in (TOP / "bindings/rust").glob("[se]*/*.rs"))}
    tally.count("files of the crate", differing([], sorted(wanted - names)))
    tally.count("no commit in the crate", "" if ".cargo_vcs_info.json" not in names else "it names one")
    how = {"cwd": tmp_path / f"cms-canon-{VERSION}", "env": environment}
    for words in (["test", "--quiet"], ["doc", "--quiet", "--no-deps"]):
        tally.count(f"cargo {words[0]}", why_failed(ended(["cargo", *words, "--offline"], **how)))
    run_example = ["cargo", "run", "--quiet", "--offline", "--example", "signers", "examples/message.ber"]
    done = ended(run_example, **how)
    tally.count("the example of the crate", why_failed(done) or ("" if "107 octets" in done.output else told(done)))
    how["env"] = {**environment, "CMS_CANON_LIB_DIR": str(tmp_path / "nowhere")}
    done = ended(run_example, **how)
    tally.count("CMS_CANON_LIB_DIR before the crate's own", "" if done.status != 0 and "nowhere/libcms_canon.a" in done.error else told(done))


# What cargo says of a target: processor, system, order of octets, bits of a pointer; and the folder of the library, if there is one for it.
RUST_TARGETS = {
    ("x86_64", "linux", "little", "64"): "x86_64-linux",
    ("aarch64", "linux", "little", "64"): "aarch64-linux",
    ("x86_64", "linux", "little", "32"): None,
    ("aarch64", "linux", "big", "64"): None,
    ("aarch64", "android", "little", "64"): None,
    ("aarch64", "macos", "little", "64"): None,
    ("riscv64", "linux", "little", "64"): None,
}


@needs("rustc")
def test_targets_of_the_crate(tally, tmp_path):
    """Runs the build script of the crate for several targets: it links the library for each, and refuses those without one."""
    crate = TOP / "bindings" / "rust"
    build = ["rustc", "--edition", "2021", "-o", tmp_path / "build", crate / "build.rs"]
    tally.count("build.rs", why_failed(ended(build, env={**os.environ, "CARGO_MANIFEST_DIR": str(crate)})))
    for target, folder in RUST_TARGETS.items():
        said = {f"CARGO_CFG_TARGET_{name}": value for name, value in zip(("ARCH", "OS", "ENDIAN", "POINTER_WIDTH"), target)}
        done = ended([tmp_path / "build"], env={"PATH": os.environ["PATH"], "TARGET": "-".join(target), **said})
        is_well = f"/dist/{folder}\n" in done.output if folder else done.status != 0 and "-".join(target) in done.error and not done.output
        tally.count(f"build.rs for {target}", "" if is_well else told(done))


@pytest.mark.parametrize("machine", ["riscv64", "armv7l"])
def test_wheel_of_another_machine(machine):
    """Asks pip's hook for a wheel on a machine without a library."""
    script = (f"import os, sys; sys.path.insert(0, 'packaging'); os.uname = lambda: os.uname_result(('Linux', '', '', '', {machine!r})); "
              "from packages import python; python.build_wheel(python.BINDING, '.')")
    done = ended([sys.executable, "-c", script], cwd=TOP)
    fail_if("" if done.status != 0 and f"and this is {machine}-linux" in done.error and "Traceback" not in done.error else told(done))


@needs("lintian")
def test_lintian(tally):
    said = ended(["lintian", "--no-cfg", "--allow-root", "--fail-on", "none", *sorted(PACKAGES.glob("*.deb"))])
    found = [line for line in said.output.splitlines() if line.startswith(("E: ", "W: "))]
    tally.count("lintian", "; ".join(found) if found or said.status == 0 else told(said))


# An instruction that changes the stack pointer, or takes a place to return to, otherwise than a shadow stack follows.
ODD_STEP = re.compile(r"(?:leave|enter|iret|lret|\w*ssp)|ret\w* +\S|pop +%[er]?sp|xchg.*%[er]?sp\b(?!\))|(?!(?:add|sub) +\$)\w+ .*,%[er]?sp$")


ODD_STEPS = ("mov    %rbp,%rsp", "leave", "ret    $0x8", "xchg   %rax,%rsp", "lea    -0x8(%rbp),%rsp", "and    $0xfff0,%rsp", "incsspq %rax",
             "pop    %rsp", "add    %rax,%rsp", "mov    0x8(%rdi),%rsp", "lretq")


@needs("readelf")
def test_hardening(tally):
    for name in ("cms-canon", "libcms_canon.so"):
        shown = ended(["readelf", "-dlnSW", BINARIES / name]).output
        flags = re.findall(r"^ *LOAD +(?:0x\w+ +){5}([RWE ]{3}) 0x", shown, re.M)
        facts = {
            "a table of addresses that is read-only": "GNU_RELRO" in shown,
            "addresses bound at the start": re.search(r"FLAGS_1\).*\bNOW\b", shown),
            "a stack without code": re.search(r"GNU_STACK .* RW  ", shown),
            "code that is not written to": "R E" in flags and not any("W" in it and "E" in it for it in flags),
            "no relocations in code": "TEXTREL" not in shown,
            "no path of its own for libraries": "RPATH" not in shown and "RUNPATH" not in shown,
            "a place that is chosen at each start": name.endswith(".so") or re.search(r"FLAGS_1\).*\bPIE\b", shown),
            "pages of code that have nothing else": name == "cms-canon" or has_code_apart(shown),
        }
        for fact, is_so in facts.items():
            tally.count(f"{name}: {fact}", "" if is_so else "it is not so")
    # The library says that it runs under a shadow stack, and no instruction of it is in the way.
    for name in ("libcms_canon.so", "libcms_canon.a"):
        noted = ended(["readelf", "-nW", BINARIES / name]).output
        tally.count(f"{name}: a note on shadow stacks", "" if re.search(r"x86 feature: .*\bSHSTK\b", noted) else "there is none")
    if tally.has("objdump", "instructions that change the stack pointer"):
        shown = ended(["objdump", "-d", "--no-show-raw-insn", BINARIES / "libcms_canon.so"]).output
        instructions = [it.strip() for it in re.findall(r"^ *[0-9a-f]+:\t(.*)$", shown, re.M)]
        odd = sorted({it for it in instructions if ODD_STEP.match(it)})
        tally.count("instructions under a shadow stack", differing([], odd[:5]) if "ret" in instructions else "none were found")
        tally.count("instructions that are not for a shadow stack", differing([], [it for it in ODD_STEPS if not ODD_STEP.match(it)]))


def has_code_apart(shown):
    """Whether the part of a file with code begins on a page of the file on which nothing else is, as does what follows it."""
    parts = re.findall(r"^ *LOAD +(0x\w+) +(?:0x\w+ +){2}(0x\w+) +0x\w+ ([RWE ]{3}) 0x", shown, re.M)
    places = [(int(begin, 16), int(length, 16), flags) for begin, length, flags in parts]
    pages = [(begin // PAGE, (begin + length - 1) // PAGE, flags) for begin, length, flags in places if length]
    return all(one[1] < other[0] for one, other in zip(pages, pages[1:]) if "E" in one[2] + other[2])
