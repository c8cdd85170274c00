'use strict';
// What a text names on the map: a link, a node or a zone by its identifier, or links by their
// name. "node 7" and "zone 7" say which of them is meant.
const Finder = (() => {
    const kinds = {link, node, zone, name};
    // The letters from which on names are looked for.
    const leastOfName = 3;

    // Answers { words, links, nodes } of the first kind that has the text, or null.
    function find(run, text) {
        const said = /^(link|node|zone|name)\s+(.+)$/i.exec(text);
        const chosen = said === null ? Object.values(kinds) : [kinds[said[1].toLowerCase()]];
        const key = said === null ? text : said[2].trim();
        for (const look of chosen) {
            const found = look(run, key);
            if (found !== null) return found;
        }
        return null;
    }

    function link(run, key) {
        const place = run.linkPlaces.get(key);
        if (place === undefined) return null;
        return {words: `link ${key}`, links: [place], nodes: endsOf(run, [place])};
    }

    function node(run, key) {
        const place = run.nodes.names.indexOf(key);
        if (place < 0) return null;
        const zoneName = run.nodes.zones[place] || '';
        const words = `node ${key}` + (zoneName === '' ? '' : ` of zone ${zoneName}`);
        return {words, links: [], nodes: [place], node: key};
    }

    function zone(run, key) {
        const nodes = placesWhere(run.nodes.zones, (one) => one === key);
        if (key === '' || nodes.length === 0) return null;
        return {words: `zone ${key}, ${counted(nodes, 'node')}`, links: [], nodes};
    }

    function name(run, key) {
        const {titles} = run.links, wanted = key.toLowerCase();
        if (titles === null || wanted.length < leastOfName) return null;
        const links = placesWhere(titles, (title) => title.toLowerCase().includes(wanted));
        if (links.length === 0) return null;
        const words = `${titles[links[0]]}, ${counted(links, 'link')}`;
        return {words, links, nodes: endsOf(run, links)};
    }

    function placesWhere(list, is) {
        const found = [];
        list.forEach((one, place) => {
            if (is(one)) found.push(place);
        });
        return found;
    }

    function endsOf({links: {from, to}}, links) {
        return links.flatMap((one) => [from[one], to[one]]);
    }

    function counted(list, noun) {
        return `${Totals.format(list.length)} ${noun}${list.length === 1 ? '' : 's'}`;
    }

    return {find, leastOfName};
})();
