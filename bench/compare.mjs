// Runs target/steps and bench/steps.mjs in the engines that are installed, with and without their compilers, in one run: a table of ns for one turn with
// ratios, and docs/benchmarks.svg, bars of how many times as long as here each takes.
import { spawnSync } from 'node:child_process';
import { writeFileSync } from 'node:fs';

const work = 'bench/steps.mjs';
const runs = [
  { name: 'here', command: 'target/steps', words: [], ink: '#1b6e4b' },
  { name: 'node', command: 'node', words: [work], ink: '#b9c3cc' },
  { name: 'node, no compiler', command: 'node', words: ['--jitless', work], ink: '#6b7f92' },
  { name: 'jsc', command: 'jsc', words: [work], ink: '#e3c39a' },
  { name: 'jsc, no compiler', command: 'jsc', words: [work], variables: { JSC_useJIT: '0' }, ink: '#b5803a' },
];

// The lines of a run, or nothing where the engine is not installed.
const linesOf = ({ command, words, variables }) => {
  const { status, stdout, stderr, error } = spawnSync(command, words, { env: { ...process.env, ...variables }, encoding: 'utf8' });
  if (error?.code === 'ENOENT') return undefined;
  if (status !== 0) throw new Error(`${command} ${words.join(' ')}: ${error ?? stderr}`);
  return stdout.trim().split('\n').map((line) => line.split('\t'));
};

const found = runs.map((run) => ({ ...run, lines: linesOf(run) })).filter((run) => run.lines);
const [here, ...others] = found;
const works = here.lines.map(([name]) => name);
for (const { name, lines } of others) {
  if (lines.map(([work]) => work).join() !== works.join()) throw new Error(`${name} did other work`);
}
const ns = ({ lines }, i) => Number(lines[i][1]);

const width = Math.max(...works.map((name) => name.length)) + 2;
const cell = (text) => String(text).padStart(20);
console.log('ns for one turn, and of how many of ours it is'.padEnd(width) + found.map(({ name }) => cell(name)).join(''));
works.forEach((name, i) => {
  const figures = others.map((run) => cell(`${ns(run, i).toFixed(1)} (${(ns(run, i) / ns(here, i)).toFixed(2)})`));
  console.log(name.padEnd(width) + cell(ns(here, i).toFixed(1)) + figures.join(''));
});

// The chart: a group for each work, a bar for each run, on a logarithmic scale of the time beside ours.
const [left, bar, gap, scale, head] = [290, 13, 16, 430, 64];
const ratios = works.map((_, i) => found.map((run) => ns(run, i) / ns(here, i)));
const least = Math.min(1, ...ratios.flat()) / 1.3;
const most = Math.max(...ratios.flat()) * 1.6;
const x = (ratio) => (scale * Math.log(ratio / least)) / Math.log(most / least);
const group = found.length * bar + gap;
const height = head + works.length * group + 8;
const text = (at, y, words, more = '') => `<text x="${at.toFixed(0)}" y="${y.toFixed(0)}" ${more}>${words}</text>`;
const parts = [text(8, 20, 'Time for one turn beside ours (ours is 1; longer bars are slower; the scale is logarithmic)', 'font-weight="bold"')];
let at = 8;
for (const { name, ink } of found) {
  parts.push(`<rect x="${at}" y="32" width="11" height="11" fill="${ink}"/>`, text(at + 16, 42, name));
  at += 40 + 7 * name.length;
}
works.forEach((name, i) => {
  const top = head + i * group;
  parts.push(text(left - 10, top + (found.length * bar) / 2 + 4, name, 'text-anchor="end"'));
  found.forEach((run, k) => {
    const y = top + k * bar;
    parts.push(`<rect x="${left}" y="${y}" width="${x(ratios[i][k]).toFixed(1)}" height="${bar - 2}" fill="${run.ink}"/>`);
    parts.push(text(left + x(ratios[i][k]) + 5, y + bar - 4, k === 0 ? `${ns(run, i).toFixed(0)} ns` : ratios[i][k].toFixed(2), 'font-size="10"'));
  });
});
const ours = left + x(1);
parts.push(`<line x1="${ours.toFixed(1)}" x2="${ours.toFixed(1)}" y1="${head - 6}" y2="${height - 8}" stroke="#1b6e4b" stroke-dasharray="3 3"/>`);
writeFileSync(
  'docs/benchmarks.svg',
  `<svg xmlns="http://www.w3.org/2000/svg" width="${left + scale + 70}" height="${height}" font-family="sans-serif" font-size="12" fill="#222">\n` +
    `<rect width="100%" height="100%" fill="#fff"/>\n${parts.join('\n')}\n</svg>\n`,
);
