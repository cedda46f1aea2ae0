// The worker, which tells the other tabs nothing any more once it is muted: as one does whose tab is being closed, while what they asked is done.
import './mute.js';
import '../../dist/worker.js';
