// The worker, which notes what it is asked, and comes to nothing more once it is stuck: as one does whose tab is closed in between.
import './stuck.js';
import '../../dist/worker.js';
