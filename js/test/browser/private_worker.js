// The worker, in a private window that gives no folder out.
import './private.js';
import '../../dist/worker.js';
