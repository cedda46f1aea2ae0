// Short scenes that the page plays by itself: who does what, in which order. Each begins anew with phones A and B.

import * as tasks from './tasks.js';

const offline = (name) => ({ name, isOnline: false });
const online = (name) => ({ name, isOnline: true });
const does = (name, said, edits) => ({ name, said, edits });
const replaced = (name) => ({ name, isReplaced: true });
const newTask = (name, title, atTop) => does(name, `new task “${title}”`, ({ tables, newKey }) => tasks.add(tables, newKey(), title, atTop));

const AWAY = [offline('A'), offline('B')];

export const SCENES = [
  {
    name: 'Two titles for one task',
    steps: [
      ...AWAY,
      does('A', 'the title of A1 is “Buy rye bread”', () => tasks.setTitle('A1', 'Buy rye bread')),
      does('B', 'the title of A1 is “Buy white bread”', () => tasks.setTitle('A1', 'Buy white bread')),
      online('B'),
      online('A'),
    ],
  },
  {
    name: 'New tasks at one place',
    steps: [...AWAY, newTask('A', 'Wash the car', true), newTask('B', 'Mow the lawn', true), newTask('A', 'Bake a cake', true), online('B'), online('A')],
  },
  {
    name: 'A vote on each phone',
    steps: [...AWAY, does('A', 'a vote for A2', () => tasks.vote('A2')), does('B', 'a vote for A2', () => tasks.vote('A2')), online('A'), online('B')],
  },
  {
    name: 'Done on one, erased on the other',
    steps: [
      ...AWAY,
      does('A', 'A3 is done', () => tasks.setDone('A3', true)),
      does('A', 'tag bank on A3', () => tasks.addTag('A3', 'bank')),
      does('B', 'A3 is erased', ({ tables }) => tasks.erase(tables, 'A3')),
      online('B'),
      online('A'),
    ],
  },
  {
    name: 'Columns that differ, and a new phone',
    steps: [
      ...AWAY,
      does('A', 'a column due, a text', () => tasks.addDue('Text')),
      does('B', 'a vote for A2', () => tasks.vote('A2')),
      does('B', 'a column due, a number', () => tasks.addDue('Int')),
      does('B', 'due of A1 is 7', () => tasks.setDue('A1', 7)),
      does('B', 'a vote for A1', () => tasks.vote('A1')),
      online('A'),
      online('B'),
      replaced('B'),
    ],
  },
];
