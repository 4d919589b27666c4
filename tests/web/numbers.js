// Calls of the page's modules with values that are no integers, or too large or small ones: each throws an error of its
// class that begins with its name, and draws nothing. tests/web/numbers.py runs it in the page, and is given how
// many there were and those that did not.
(async () => {
  const { Batch, Canvas } = await import('./canvas.js');
  const { Core, EdgeFunctions } = await import('./core.js');
  const core = await Core.load('canvas.wasm.gz'), other = await Core.load('canvas.wasm.gz');
  const canvas = new Canvas(core, 4, 3, 4), edges = new EdgeFunctions(core);
  const state = { depth_test: 2, skip_samples: 9, scissor: [-5, 0, 4096, 4096], blend: [5, 6, 1, 2, 6, 1, 0, 0, 0, 0] };
  const row = [0, 0, 0, 9, 9, 9, 9];
  const draw = { state, vertices: [row, row, Array(7).fill(5)], indices: [0, 1, 2] };
  const sizes = [0, 5000, 1.9, NaN, Infinity, -1, 2 ** 32 + 4], bytes = [300, -1, 0.5, NaN];
  const words = [70000, -1, 1.5, NaN, 2 ** 32], samples = [4, -1, 0.5, NaN, 2 ** 32];
  const integers = [1.9, NaN, Infinity, 2 ** 32, -(2 ** 32)], no_numbers = ['3', null, undefined, 3n, true, [3], {}];
  const calls = [
    ['width', (value) => new Canvas(core, value, 3, 1), sizes],
    ['height', (value) => new Canvas(core, 3, value, 1), sizes],
    ['samples', (value) => new Canvas(core, 3, 3, value), [1.9, NaN, -1, 0, 2 ** 32 + 1]],
    ['color[0]', (value) => canvas.clear([value, 0, 0], 9), bytes],
    ['color[2]', (value) => canvas.clear([0, 0, value], 9), bytes],
    ['depth', (value) => canvas.clear([1, 2, 3], value), words],
    ['sample', (value) => canvas.ids(value), samples], ['sample', (value) => canvas.depths(value), samples],
    ...['topology', 'cull', 'depth_test', 'depth_write', 'keep'].map((name) => [
      `draws[0].state.${name}`, (value) => new Batch(core, [{ ...draw, state: { [name]: value } }]), bytes,
    ]),
    ['draws[0].state.skip_samples', (value) => new Batch(core, [{ ...draw, state: { skip_samples: value } }]), words],
    [
      'draws[0].state.scissor[2]', (value) => new Batch(core, [{ ...draw, state: { scissor: [0, 0, value, 0] } }]),
      integers,
    ],
    [
      'draws[0].state.blend[5]',
      (value) => new Batch(core, [{ ...draw, state: { blend: state.blend.with(5, value) } }]), bytes,
    ],
    [
      'draws[1].vertices[2][1]',
      (value) => new Batch(core, [draw, { ...draw, vertices: draw.vertices.with(2, row.with(1, value)) }]), integers,
    ],
    ['draws[0].vertices[0][2]', (value) => new Batch(core, [{ ...draw, vertices: [row.with(2, value)] }]), words],
    ['draws[0].vertices[0][6]', (value) => new Batch(core, [{ ...draw, vertices: [row.with(6, value)] }]), bytes],
    ['draws[0].indices[1]', (value) => new Batch(core, [{ ...draw, indices: [0, value, 2] }]), [...integers, -1]],
    ['corners[3]', (value) => edges.of([[0, 0], [0, value], [0, 0]]), integers],
    ['x', (value) => edges.at(value, 0), integers], ['y', (value) => edges.at(0, value), integers],
  ].flatMap(([name, call, values]) => [
    ...values.map((value) => [name, call, value, RangeError]),
    ...no_numbers.map((value) => [name, call, value, TypeError]),
  ]);
  const whole = [
    ['color', (value) => canvas.clear(value, 9), [[1], [1, 2, 3, 4], []], RangeError],
    ['color', (value) => canvas.clear(value, 9), [7, null, 'abc', new Set([1, 2, 3])], TypeError],
    [
      'draws[0].state', (value) => new Batch(core, [{ ...draw, state: value }]),
      [undefined, null, 3, 'none'], TypeError,
    ],
    [
      'draws[0].state', (value) => new Batch(core, [{ ...draw, state: value }]),
      [
        { culls: 1 }, { scissor: [] }, { blend: [1, 2] }, [1], { toString: 1 }, { constructor: 1 },
        JSON.parse('{"__proto__": 1}'),
      ],
      RangeError,
    ],
    [
      'draws[0].vertices', (value) => new Batch(core, [{ ...draw, vertices: value }]),
      [[[1, 2, 3]], [row, []]], RangeError,
    ],
    [
      'draws[0].vertices', (value) => new Batch(core, [{ ...draw, vertices: value }]),
      [3, null, [1, 2, 3], [null]], TypeError,
    ],
    [
      'draws[0].indices', (value) => new Batch(core, [{ ...draw, indices: value }]),
      [3, null, undefined, '012'], TypeError,
    ],
    ['draws', (value) => new Batch(core, value), [draw, null, 3], TypeError],
    ['draws[0]', (value) => new Batch(core, [value]), [null, 3], TypeError],
    [
      'corners', (value) => edges.of(value),
      [[[0, 0]], [], [[1, 2, 3], [4, 5, 6]], [1, 2, 3, 4, 5, 6], [[1, 2, 3, 4, 5], [6], []]], RangeError,
    ],
    ['corners', (value) => edges.of(value), [3, null], TypeError],
    ['batch', (value) => canvas.draw(value), [{ address: 64 }, null, new Batch(other, [draw])], TypeError],
    ['batch', (value) => canvas.drawIds(value), [undefined, new Batch(other, [])], TypeError],
  ].flatMap(([name, call, values, kind]) => values.map((value) => [name, call, value, kind]));
  canvas.clear([7, 8, 9], 100);
  const wrong = [...calls, ...whole].filter(([name, call, value, kind]) => {
    try {
      call(value);
    } catch (error) {
      return !(error instanceof kind && error.message.startsWith(name));
    }
    return true;
  }).map(([name, , value]) => `${name}: ${String(value)}`);
  const filled = (value) => Array(12).fill(value).join();
  if (canvas.colors().join() !== filled('7,8,9') || canvas.depths(3).join() !== filled(100)) wrong.push('the samples');
  const typed = {
    state: {}, vertices: draw.vertices.map((each) => Int32Array.from(each)), indices: new Uint32Array(3),
  };
  if (canvas.draw(new Batch(core, [draw, typed])) !== null) wrong.push('a batch');
  // What a state inherits is no member of it: nothing would check it.
  const whole_canvas = [[0, 0], [9999, 0], [0, 9999]].map((point) => [...point, 0, 1, 2, 3, 255]);
  const heir = Object.create({ scissor: [1.5, 0, NaN, '7'], blend: [1.5, 'x'] });
  canvas.draw(new Batch(core, [{ state: heir, vertices: whole_canvas, indices: [0, 1, 2] }]));
  if (canvas.colors().join() !== filled('1,2,3')) wrong.push('an inherited state');
  // Without memory there is no canvas, and what was taken for it is given back.
  const large = await Core.load('canvas.wasm.gz');
  let message = '', before = 0;
  while (message === '') {
    before = large.top;
    try {
      new Canvas(large, 4096, 4096, 16);
    } catch (error) {
      message = error.constructor === Error ? error.message : error.name;
    }
  }
  if (!message.startsWith('no memory for')) wrong.push(`no memory: ${message}`);
  if (large.top !== before) wrong.push('memory of a canvas for which there is none');
  // What the core refuses of a list is called by the program's words.
  const { pixelsOf } = await import('./draw_list.js');
  for (const draw of [{ depth_write: 2 }, { write: [true, true, true, true, false] }]) {
    let line = 'drawn';
    try {
      pixelsOf(core, { width: 1, height: 1, draws: [{ vertices: [], triangles: [], ...draw }] });
    } catch (error) {
      line = error.message;
    }
    if (line !== 'list fault 4 WrongKind in draw 0') wrong.push(`${JSON.stringify(draw)}: ${line}`);
  }
  // What a call takes of the memory for itself it gives back.
  const { top } = core;
  const taking = [
    () => canvas.clear([1, 2, 3], 4), () => canvas.colors(), () => canvas.ids(0), () => canvas.depths(1),
  ];
  for (const call of taking) {
    call();
    if (core.top !== top) wrong.push(`memory of ${call}`);
  }
  return [calls.length + whole.length, wrong];
})()
