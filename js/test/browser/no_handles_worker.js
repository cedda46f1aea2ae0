// The worker, in a browser that has no handles of OPFS.
import './no_handles.js';
import '../../dist/worker.js';
