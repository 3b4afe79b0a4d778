"""Runs the rows of svc_cases through the module of a built page, in a browser: cases.py PAGE.html DATA-FOLDER

All bytes are compared: the status, both outputs and the saved file. Left out are runs on threads, which the module
doesn't do, and rows whose file can't be saved there, as svc_cases saves none below a folder."""
import base64
import csv
import glob
import os
import sys

from browser import Page

CHUNK = 60
ASK = r"""
const [rows, done] = [arguments[0], arguments[arguments.length - 1]];
const bytes_of = (it) => Uint8Array.from(atob(it), (c) => c.charCodeAt(0));
const same = (a, b) => a.length === b.length && a.every((x, k) => x === b[k]);
const coder = new TextEncoder(), library = svcsim.page.requests.other;
// Whether what was got is what is wanted, of which a beginning may be enough.
function fits(got, wanted, end) {
  if (wanted === null) return got.length === 0;
  const all = bytes_of(wanted), dots = coder.encode(end), kept = all.length - dots.length;
  const is_begun = kept >= 0 && same(all.slice(kept), dots);
  return is_begun ? same(got.slice(0, kept), all.slice(0, kept)) : same(got, all);
}
async function row_is(row) {
  for (const [name, text] of Object.entries(row.assemble)) {
    library.put(`${name}.s`, bytes_of(text));
    await library.ask(['assemble', `${name}.s`, name]);
  }
  for (const [name, file] of Object.entries(row.files)) library.put(name, bytes_of(file));
  const got = await library.ask(row.words), names = Object.keys(got.saved).sort(), bad = [];
  if (got.status !== row.status) bad.push(`status ${got.status}`);
  if (!fits(coder.encode(got.out), row.out, '...\n')) bad.push('standard output');
  if (!fits(coder.encode(got.err.replace(/\n$/, '')), row.err, '...')) bad.push(`standard error (${got.err.trim()})`);
  const wanted = Object.keys(row.saved).sort(), is_saved = (it) => same(got.saved[it], bytes_of(row.saved[it]));
  if (names.join() !== wanted.join() || !wanted.every(is_saved)) bad.push(`saved ${names.join()}`);
  for (const it of [...names, ...Object.keys(row.files), ...Object.keys(row.assemble)]) library.drop(it);
  return bad;
}
(async () => {
  const bad = [];
  for (const row of rows) {
    try { const why = await row_is(row); if (why.length) bad.push(`${row.name}: ${why.join(', ')}`); }
    catch (why) { bad.push(`${row.name}: ${why.message}`); }
  }
  done(bad);
})();
"""


def bytes_of(name):
    with open(name, "rb") as it:
        return it.read()


def encoded(it):
    return base64.b64encode(it).decode()


def made_images(data):
    """The images that svc_cases makes of others."""
    made = {}
    with open(f"{data}/images.csv", encoding="utf-8", newline="") as it:
        for row in csv.DictReader(it):
            image = made.get(row["name"])
            if image is None:
                image = made[row["of"]] if row["of"] in made else bytes_of(f"{data}/{row['of']}")
            place, _, word = row["change"].partition("=")
            if word:
                at = int(place)
                image = image[:at] + int(word, 16).to_bytes(4, "little") + image[at + 4 :]
            else:
                image = image[: int(place)].ljust(int(place), b"\0")
            made[row["name"]] = image
    return made


def row_of(row, data, made):
    words = row["words"].split()
    is_threads = not words or (words[0] == "run" and "--schedule" not in words and row["status"] != "1")
    is_below = any("/" in it and not os.path.isdir(f"{data}/{os.path.dirname(it)}") for it in words)
    if is_threads or is_below:
        return None
    files, texts = {}, {}
    for it in words:
        if it in made:
            files[it] = encoded(made[it])
        elif it.startswith("programs/") and it.endswith(".svci"):
            texts[it] = encoded(bytes_of(f"{data}/{it[:-5]}.s"))
        elif os.path.isfile(f"{data}/{it}"):
            files[it] = encoded(bytes_of(f"{data}/{it}"))
    saved = dict(it.split("=") for it in row["saved"].split())
    return {
        "name": row["name"],
        "words": words,
        "status": int(row["status"]),
        "out": encoded(bytes_of(f"{data}/{row['out']}")) if row["out"] else None,
        "err": encoded(row["err"].encode()) if row["err"] else None,
        "saved": {name: encoded(bytes_of(f"{data}/{it}")) for name, it in saved.items()},
        "files": files,
        "assemble": texts,
    }


def main(page_file, data):
    made, rows, all_rows = made_images(data), [], 0
    for name in sorted(glob.glob(f"{data}/cases/*.csv")):
        with open(name, encoding="utf-8", newline="") as it:
            for row in csv.DictReader(it):
                all_rows += 1
                found = row_of(row, data, made)
                if found:
                    rows.append(found)
    page, bad = Page(page_file), []
    try:
        for at in range(0, len(rows), CHUNK):
            bad += page.ask(ASK, rows[at : at + CHUNK])
    finally:
        page.close()
    for it in bad:
        print(it)
    passed, left_out = len(rows) - len(bad), all_rows - len(rows)
    print(f"cases: {passed} of {len(rows)} rows as expected; {left_out} of {all_rows} left out")
    return 1 if bad else 0


if __name__ == "__main__":
    sys.exit(main(*sys.argv[1:3]))
