// What a console, or a test, may ask of the page: `lab.run("paged", ["flat", "p8.s"], { "p8.s": "..." })` runs a program.

window.lab = {
  async run(program, words, files = {}, input = "") {
    const made = new Map(Object.entries(files).map(([name, data]) => [name, Array.isArray(data) ? Uint8Array.from(data) : coder.encode(data)]));
    const done = await long.run(program, words, { files: made, input: coder.encode(input), most: 1 << 29 });
    return [done.status, decoder.decode(done.out), decoder.decode(done.err)];
  },
  async runAll(jobs) {
    const told = [];
    for (const job of jobs) told.push(await lab.run(...job));
    return told;
  },
  grid: (policy, frames, string) => gridOf(policy, frames, playString(policy, frames, string)),
  state: () => state,
  sources: () => state.images.map(it => [...bytesOf(it)]),
  played: () => played,
  talk: () => talk,
  film: () => filmText,
  event: () => viewer ? viewer.at : null,
  isChecked: () => checked === checks,
  forget() {
    state = newState();
  },
};
