// The grammar of applications of rtic, by docs/LANGUAGE.md. Limits and the rules of names and locks are not told here.

const SIGNED = [
  ['or', ['|']],
  ['xor', ['^']],
  ['and', ['&']],
  ['shift', ['<<', '>>']],
  ['sum', ['+', '-']],
  ['product', ['*', '/', '%']],
];
const COMPARISONS = ['==', '!=', '<', '<=', '>', '>='];

// Empty, or items with a comma between each two and perhaps one more after the last.
const list = (item) => optional(seq(item, repeat(seq(',', item)), optional(',')));

// The words that name nothing. A name is one of them followed by a byte that no token begins with, so never: without
// this the parser would take a word for a name wherever no rule wants the word.
const RESERVED = ('app bits dispatchers interrupts monotonic binds priority capacity shared local lock_free init idle '
  + 'task with let if else for in lock emit pend spawn spawn_after now cancel reschedule_after').split(' ');
const FOREIGN = '\u0001';

// Options come in any order, each at most once: a rule for each set of those that are left.
const OPTIONS = ['binds', 'priority', 'capacity', 'shared_list', 'local_list'];
const left = (names) => '_left_' + names.join('_');
const optionRules = () => {
  const rules = {};
  for (let set = 1; set < 1 << OPTIONS.length; set += 1) {
    const names = OPTIONS.filter((_, place) => set & 1 << place);
    rules[left(names)] = ($) => choice(...names.map((name) => {
      const rest = names.filter((other) => other !== name);
      return seq($[name], optional(rest.length ? seq(',', optional($[left(rest)])) : ','));
    }));
  }
  return rules;
};
const options = ($, names) => seq('(', optional($[left(names)]), ')');

module.exports = grammar({
  name: 'rtic',
  extras: ($) => [/[ \t\r\n]/, $.comment],
  word: ($) => $.identifier,

  rules: {
    source_file: ($) => seq(
      $.app_declaration,
      $.interrupts,
      optional($.monotonic),
      optional($.shared),
      optional($.local),
      optional($.init),
      optional($.idle),
      repeat($.task),
    ),

    app_declaration: ($) => seq(
      'app', field('name', $._name), '(', 'bits', '=', $.number,
      optional(seq(',', $.dispatchers)),
      optional(seq(',', $.fpu)),
      ')', ';',
    ),
    dispatchers: ($) => seq('dispatchers', '=', '[', list(field('interrupt', $._name)), ']'),
    fpu: () => seq('fpu', '=', 'on'),

    interrupts: ($) => seq('interrupts', '{', list($.interrupt), '}'),
    interrupt: ($) => seq(field('name', $._name), '=', field('number', $.number)),
    monotonic: ($) => seq('monotonic', '(', $.binds, ',', $.priority, ')', ';'),
    shared: ($) => seq('shared', '{', list($.shared_resource), '}'),
    shared_resource: ($) => seq(optional('lock_free'), field('name', $._name), '=', field('value', $.number)),
    local: ($) => seq('local', '{', list($.local_resource), '}'),
    local_resource: ($) => seq(field('name', $._name), '=', field('value', $.number)),

    init: ($) => seq('init', optional(alias($._init_options, $.options)), $.block),
    idle: ($) => seq('idle', optional(alias($._idle_options, $.options)), $.block),
    task: ($) => seq('task', field('name', $._name), optional(alias($._task_options, $.options)), optional($.arguments),
      $.block),
    arguments: ($) => seq('with', field('name', $._name), repeat(seq(',', field('name', $._name)))),

    _init_options: ($) => options($, ['local_list']),
    _idle_options: ($) => options($, ['shared_list', 'local_list']),
    _task_options: ($) => options($, OPTIONS),
    binds: ($) => seq('binds', '=', field('interrupt', $._name)),
    priority: ($) => seq('priority', '=', $.number),
    capacity: ($) => seq('capacity', '=', $.number),
    shared_list: ($) => seq('shared', '=', '[', list(seq(optional('&'), field('resource', $._name))), ']'),
    local_list: ($) => seq('local', '=', '[', list(field('resource', $._name)), ']'),

    block: ($) => seq('{', repeat($._statement), '}'),
    _statement: ($) => choice($.let, $.assignment, $.if, $.for, $.lock, $.emit, $.pend, seq($._call, ';')),
    let: ($) => seq('let', field('name', $._name), '=', field('value', choice($._expression, $.now, $._call)), ';'),
    now: () => 'now',
    assignment: ($) => seq(field('name', $._name), '=', field('value', $._expression), ';'),
    if: ($) => prec.right(seq('if', field('condition', $._expression), $.block, optional(seq('else', $.block)))),
    for: ($) => seq('for', field('name', $._name), 'in', $.number, '..', $.number, $.block),
    lock: ($) => seq('lock', field('resource', $._name), repeat(seq(',', field('resource', $._name))), $.block),
    emit: ($) => seq('emit', $._expression, ';'),
    pend: ($) => seq('pend', field('interrupt', $._name), ';'),

    _call: ($) => choice($.spawn, $.spawn_after, $.cancel, $.reschedule_after),
    spawn: ($) => seq('spawn', field('task', $._name), $.values),
    spawn_after: ($) => seq('spawn_after', '(', field('delay', $._expression), ')', field('task', $._name), $.values),
    cancel: ($) => seq('cancel', field('task', $._name), '(', field('handle', $._expression), ')'),
    reschedule_after: ($) => seq('reschedule_after', '(', field('delay', $._expression), ')', field('task', $._name),
      '(', field('handle', $._expression), ')'),
    values: ($) => seq('(', list($._expression), ')'),

    _expression: ($) => choice($._value, alias($._comparison, $.operation)),
    _comparison: ($) => seq(field('left', $._value), field('operator', choice(...COMPARISONS)),
      field('right', $._value)),
    _value: ($) => choice($.number, $._name, $.parenthesized, $.operation),
    parenthesized: ($) => seq('(', $._expression, ')'),
    operation: ($) => choice(...SIGNED.map(([, signs], rank) => prec.left(rank + 1, seq(
      field('left', $._value), field('operator', choice(...signs)), field('right', $._value),
    )))),

    _name: ($) => choice($.identifier, alias('fpu', $.identifier), alias('on', $.identifier), $._no_name),
    _no_name: () => seq(choice(...RESERVED), FOREIGN),
    ...optionRules(),
    identifier: () => /[A-Za-z_][A-Za-z0-9_]*/,
    number: () => token(choice(/0x[0-9a-fA-F]+/, /[0-9]+/)),
    comment: () => token(seq('//', /[^\n]*/)),
  },
});
