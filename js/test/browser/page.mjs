// What the tests ask of a tab in each browser, over `evaluate`.

/** How long a tab may take for what a test waits for; a machine that does other work as well takes long. */
const PATIENCE = 60;

export class Page {
  faults = [];
  log = [];

  /** Runs a function in the page, with these words. */
  run(work, ...words) { return this.evaluate(`(${work})(${words.map((it) => JSON.stringify(it)).join(',')})`); }

  async until(expression, seconds = PATIENCE) {
    for (const end = Date.now() + seconds * 1000; Date.now() < end; ) {
      if (await this.evaluate(expression).catch(() => false)) return;
      await new Promise((done) => setTimeout(done, 20));
    }
    throw new Error(`never came true: ${expression}\n${[...this.faults, ...this.log].join('\n')}`);
  }

  ready() { return this.until('document.body?.dataset.ready === "yes"'); }

  /** A page that is loaded anew; what ran before has ended then. */
  async renew() {
    await this.evaluate('document.body.dataset.ready = "no"');
    await this.reload();
    await this.ready();
  }
}
