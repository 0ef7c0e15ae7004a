'use strict';

// The list of what is found: a row for each cause or place, under the heading of its part.

const MOST_GROUPS = 150;

class List {
  constructor(trace, findings, onChoose) {
    this.trace = trace;
    this.findings = findings;
    this.onChoose = onChoose;
    this.limit = MOST_GROUPS;
  }

  write() {
    const { groups, shown, all } = this.findings;
    byId('found').textContent = `${count(shown.length, 'finding')} of ${grouped(all.length)}, ${count(groups.length, 'cause')}`;
    const nodes = SECTIONS.flatMap((section) => this.sectionNodes(section, groups.filter((group) => group.section === section)));
    if (nodes.length === 0) nodes.push(make('p', {}, all.length === 0 ? 'Nothing is found wrong.' : 'No finding meets the filters.'));
    byId('groups').replaceChildren(...nodes);
  }

  sectionNodes(section, groups) {
    if (groups.length === 0) return [];
    const told = make('span', { class: 'soft' }, this.counted(section, groups));
    const nodes = [make('h3', { class: section }, `${KIND_SIGNS[section]} ${KIND_WORDS[section]} `, told)];
    if (section === 'hint') nodes.push(make('p', { class: 'key' }, 'No rule forbids these, but most are slips.'));
    nodes.push(make('ul', { class: section }, ...groups.slice(0, this.limit).map((group) => make('li', {}, this.button(group)))));
    if (groups.length > this.limit) nodes.push(this.more(groups.length - this.limit));
    return nodes;
  }

  // How many there are of a part of the list, and how many are not on the page.
  counted(section, groups) {
    const { more } = this.findings.summary;
    const left = more[section] ?? 0;
    const members = groups.flatMap((group) => group.members);
    const total = section === 'place' ? count(groups.length, 'place') : grouped(members.reduce((sum, finding) => sum + finding.stands, 0));
    return left > 0 ? `${total}, and ${grouped(left)} not on this page` : total;
  }

  more(left) {
    const more = make('button', { type: 'button' }, `Show ${count(left, 'more cause')}`);
    more.addEventListener('click', () => {
      this.limit = Infinity;
      this.write();
      this.mark();
    });
    return more;
  }

  button(group) {
    const { label, thread } = group.owner;
    const where = label === null ? [`thread ${thread}`] : ['at ', foreign(label, 60)];
    const button = make('button', { type: 'button', class: ['group', ...standingOf(group)].join(' '), 'data-kind': group.kind, 'data-number': group.number });
    const words = make('span', {}, group.words, make('br'), make('span', { class: 'soft' }, ...where));
    button.append(make('span', { class: 'times' }, `${grouped(group.stands)}×`), words);
    button.addEventListener('click', () => {
      this.chosen = group;
      this.onChoose(group.members[0]);
    });
    group.button = button;
    return button;
  }

  // Marks the row of a finding: the one that was chosen, if it has it.
  mark(finding = this.marked ?? null) {
    this.marked = finding;
    byId('groups').querySelector('[aria-current]')?.removeAttribute('aria-current');
    const group = finding === null ? null : this.groupOf(finding);
    if (!group?.button) return;
    group.button.setAttribute('aria-current', 'true');
    const nav = byId('causes');
    const box = group.button.getBoundingClientRect();
    const outer = nav.getBoundingClientRect();
    if (box.top < outer.top || box.bottom > outer.bottom) nav.scrollTop += box.top - outer.top - outer.height / 3;
  }

  groupOf(finding) {
    const isChosen = this.findings.groups.includes(this.chosen) && this.chosen.members.includes(finding);
    return isChosen ? this.chosen : this.findings.groupOf(finding);
  }
}

// How explain tells a place: as an error if it loses stores, as a warning if it saves a part late.
function standingOf({ place }) {
  if (!place) return [];
  if (place.never_persisted > 0) return ['loses'];
  return place.in_time > 0 ? ['delays'] : [];
}
