"""The examples of the packages for Java and JavaScript as a program that tries them: examples.py LANGUAGE SOURCE..

LANGUAGE is java or js. An example is a line `EXPRESSION // TEXT` in a comment: the expression, which may begin on
earlier lines, has this text. The program for Java is the class Examples; that for JavaScript imports the module that
its argument names. The last line of each is 'N passed, M failed'.
"""
import json
import re
import sys
from pathlib import Path

BLOCKS = {"java": r"<pre>\{@code\n((?: *\*.*\n)*?) *\* \}</pre>", "js": r"@example\n((?: *\* .*\n)*?) *\*/"}
CHECK = {"java": "    check({0}, String.valueOf({1}), {2});", "js": "check({0}, String({1}), {2});"}
PROGRAM = {
    "java": """import s2union.*;

final class Examples {{
  private static int passed;
  private static int failed;

  private static void check(String example, String found, String wanted) {{
    if (found.equals(wanted)) {{
      passed++;
    }} else {{
      failed++;
      System.out.println(example + " is " + found + ", not " + wanted);
    }}
  }}

  public static void main(String[] words) {{
{}
    System.out.println(passed + " passed, " + failed + " failed");
    if (failed > 0) System.exit(1);
  }}
}}""",
    "js": """const {{{1}}} = await import(process.argv[2]);
let passed = 0;
let failed = 0;
const check = (example, found, wanted) => {{
  if (found === wanted) passed++;
  else failed++, console.log(`${{example}} is ${{found}}, not ${{wanted}}`);
}};
{0}
console.log(`${{passed}} passed, ${{failed}} failed`);
process.exitCode = failed ? 1 : 0;""",
}


def examples(language, text):
    """Each example: the expression, and its text. A block without such a line is only read."""
    for block in re.findall(BLOCKS[language], text):
        lines = []
        for line in block.splitlines():
            lines.append(line.strip().removeprefix("*").strip())
            if " // " in lines[-1]:
                expression, _, wanted = " ".join(lines).rpartition(" // ")
                yield expression, wanted
                lines = []


def main():
    language, *sources = sys.argv[1:]
    text = "\n".join(Path(source).read_text(encoding="utf-8") for source in sources)
    checks = [CHECK[language].format(json.dumps(expression), expression, json.dumps(wanted))
              for expression, wanted in examples(language, text)]
    names = re.findall(r"^export (?:function|class) (\w+)", text, re.M)
    print(PROGRAM[language].format("\n".join(checks), ", ".join(names)))


if __name__ == "__main__":
    main()
