// What a person sees of sync: where it stands, what needs attention, and what another device overruled.

import type { LostEdit, SyncState } from 'realm-sync';
import { db, schema, sync } from './data.js';
import { byId, make, toast, told } from './page.js';

let isPaused = false;

/** Where sync stands, in the button at the top. */
export async function drawSync(): Promise<void> {
  const { unsent } = await db.stats();
  const state = db.syncState; // as it is by now
  const waiting = unsent === 0 ? '' : unsent === 1 ? ' · 1 change waiting' : ` · ${unsent} changes waiting`;
  const said: Record<SyncState['status'], string> = {
    off: `Paused${waiting}`, connecting: 'Connecting', offline: `Offline${waiting}`, syncing: 'Syncing', upToDate: 'Up to date', recovering: 'Recovering',
    attention: 'Needs attention',
  };
  const pill = byId('pill');
  pill.dataset['status'] = state.status;
  pill.title = isPaused ? 'Go online' : 'Go offline';
  byId('pill-text').textContent = said[state.status];
  drawProblem(state);
}

function drawProblem(state: SyncState): void {
  const banner = byId('banner');
  banner.hidden = state.status !== 'attention';
  if (state.status !== 'attention') return;
  const { problem } = state;
  const recover = make('button', { type: 'button' }, 'Start over here, and keep what can be kept');
  recover.onclick = () => void told(db.recover());
  banner.replaceChildren(make('p', {}, `This device no longer syncs: ${problem.text}.`), ...(problem.isRecoverable ? [recover] : []));
}

/** What is told of an edit of this device that another one overruled. */
function words({ column, why, mine, before, object }: LostEdit): string {
  const named = object ?? before;
  const title = String(named['title'] ?? named['name']);
  if (why === 'erased') return `“${title}”, which you changed, was removed on another device.`;
  return column === 'title' || column === 'name' ? `“${String(mine)}” was renamed “${title}” on another device.` : `“${title}” was changed on another device.`;
}

byId('pill').onclick = () => {
  isPaused = !isPaused;
  void told(isPaused ? db.stopSync() : db.startSync(sync));
};
db.observeSync(() => void drawSync());
db.onLost((lost) => toast(lost.map(words).join(' ')));
db.onRecovered(({ saved, dropped }) => {
  const lost = dropped.length === 0 ? '' : `, and lost ${dropped.length} edits`;
  toast(`This device was set up anew. It kept ${saved} unsent changes${lost}.`);
});
Object.assign(globalThis, { db, schema });
