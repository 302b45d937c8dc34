"""What INSTALL says of Maven and Gradle: a project that has the jar from a local repository, with no network, compiles and runs."""

import hashlib
import re
import shutil
import subprocess
from pathlib import Path

import pytest
from needs import needs
from package_tools import TOP, VERSION
from tally import differing

pytestmark = pytest.mark.tree

OF_DEBIAN = Path("/usr/share/maven-repo")  # what Debian has in place of Maven Central
INSTALL = (TOP / "docs" / "INSTALL.md").read_text(encoding="utf-8")
DER = "775ae1a53429e41657540f3eed96a76ed2cab8b85994bd7455b0c6903251161d"  # of examples/message.ber
SECONDS = 300
POM = """<project xmlns="http://maven.apache.org/POM/4.0.0">
  <modelVersion>4.0.0</modelVersion>
  <groupId>user</groupId>
  <artifactId>user</artifactId>
  <version>1</version>
  <properties>
    <maven.compiler.release>17</maven.compiler.release>
  </properties>
  <dependencies>
{}
  </dependencies>
</project>
"""
GRADLE = "apply plugin: 'application'\nmainClassName = 'Example'\n{}"

needs_maven = needs("mvn", "java", *(f"/usr/share/doc/{it}/copyright" for it in ("libmaven-install-plugin-java", "libmaven-compiler-plugin-java", "libjna-java")))


def printed(language):
    """Returns the only block of INSTALL in a language, with the version filled in."""
    (block,) = re.findall(rf"^```{language}\n(.*?)^```", INSTALL, re.M | re.S)
    return block.replace("VERSION", VERSION)


def ran(*words, cwd):
    done = subprocess.run([*map(str, words)], cwd=cwd, capture_output=True, text=True, timeout=SECONDS)
    return "" if done.returncode == 0 else f"status {done.returncode}: {(done.stdout + done.stderr)[-1500:]}"


@pytest.fixture(scope="module")
def repository(tmp_path_factory):
    """A local repository with what Debian has, into which the jar was put by the line of INSTALL."""
    folder = tmp_path_factory.mktemp("maven") / "repository"
    subprocess.run(["cp", "-rL", OF_DEBIAN, folder], stderr=subprocess.DEVNULL, check=False)  # some links of Debian lead nowhere
    (line,) = re.findall(r"^mvn (install:install-file .*)$", INSTALL, re.M)
    goal, *words = line.replace("VERSION", VERSION).split()
    plugin = next((OF_DEBIAN / "org/apache/maven/plugins/maven-install-plugin").glob("[0-9]*")).name
    goal = goal.replace("install:", f"org.apache.maven.plugins:maven-install-plugin:{plugin}:")  # no network says which is the newest
    said = ran("mvn", "-q", "-o", f"-Dmaven.repo.local={folder}", goal, *words, cwd=TOP)
    assert not said, said
    return folder


@pytest.fixture
def project(tmp_path):
    """A folder with a program in Java."""
    sources = tmp_path / "project" / "src" / "main" / "java"
    sources.mkdir(parents=True)
    shutil.copy(TOP / "examples" / "Example.java", sources)
    return tmp_path / "project"


def why_not_converted(project, *words):
    said = ran(*words, TOP / "examples" / "message.ber", project / "der", cwd=project)
    return said or differing(DER, hashlib.sha256((project / "der").read_bytes()).hexdigest())


@needs_maven
def test_maven(tally, repository, project):
    (project / "pom.xml").write_text(POM.format(printed("xml")), encoding="utf-8")
    tally.count("Maven: compiled", ran("mvn", "-q", "-o", f"-Dmaven.repo.local={repository}", "compile", cwd=project))
    jars = (repository / "cmscanon/cms-canon" / VERSION / f"cms-canon-{VERSION}.jar", next((repository / "net/java/dev/jna/jna").rglob("*.jar")))
    path = ":".join(map(str, (project / "target" / "classes", *jars)))
    tally.count("Maven: run", why_not_converted(project, "java", "-cp", path, "Example"))
    (project / "pom.xml").write_text(POM.format(printed("xml").replace(VERSION, "0.0.1")), encoding="utf-8")
    said = ran("mvn", "-q", "-o", f"-Dmaven.repo.local={repository}", "compile", cwd=project)
    tally.count("Maven: a version that is not there", "" if "cms-canon:jar:0.0.1" in said else said or "it was found")


@needs_maven
@needs("gradle")
def test_gradle(tally, repository, project, tmp_path):
    (project / "build.gradle").write_text(GRADLE.format(printed("groovy")), encoding="utf-8")
    words = ("gradle", "--offline", "--no-daemon", "-g", tmp_path / "home", f"-Dmaven.repo.local={repository}", "installDist")
    tally.count("Gradle: compiled", ran(*words, cwd=project))
    tally.count("Gradle: run", why_not_converted(project, project / "build/install/project/bin/project"))
