"""pysolr for solr_split: its `Solr`, which sends JSON to paths without a slash at their end.

    from pysolr_docs import DocsSolr
    solr = DocsSolr('http://localhost:8983/solr/docs')

What is refused comes as pysolr's SolrError, and so does what solr_split does not have (deletes by query, optimize, extract, more_like_this,
suggest_terms). Tried with pysolr 3.8.1 (Debian: python3-pysolr).
"""
import json

import pysolr


class DocsSolr(pysolr.Solr):
    """The collection at this address, as `http://localhost:8983/solr/docs`."""

    def add(self, docs, boost=None, fieldUpdates=None, commit=None, softCommit=False, **ignored):
        """Adds documents, or changes those fields that `fieldUpdates` names, each by `set`, `add`, `add-distinct`, `remove` or `inc`. A document with
        `_version_` is taken under that condition. Gives the answer's text, which tells the new versions under `adds`."""
        return self._update([self._document(doc, fieldUpdates or {}) for doc in docs], commit=commit, softCommit=softCommit)

    def delete(self, id=None, q=None, commit=None, softCommit=False, **ignored):
        """Deletes the document of this id, or of each of these ids. Deletes by query are sent as Solr takes them."""
        if (id is None) == (q is None):
            raise ValueError('You must specify "id" or "q", and not both.')
        ids = [one for one in (id if isinstance(id, (list, set, tuple)) else [id]) if one not in (None, '')]
        if q is None and not ids:
            raise ValueError('The list of documents to delete was empty.')
        return self._update({'delete': {'query': q} if q is not None else ids}, commit=commit, softCommit=softCommit)

    def commit(self, softCommit=False, **ignored):
        """Has searches find all that was written before, from then on."""
        return self._update([], commit=True)

    def _document(self, doc, changes):
        """A document as JSON has it. Empty values are left out, as pysolr does; but a field that is set to None is removed."""
        made = {}
        for name, value in doc.items():
            many = isinstance(value, (list, set, tuple))
            values = [self._value(one) for one in (value if many else [value]) if not self._is_null_value(one)]
            if values:
                value = values if many else values[0]
            elif changes.get(name) == 'set':
                value = None
            else:
                continue
            made[name] = {changes[name]: value} if name in changes else value
        return made

    def _value(self, value):
        """Texts, whole numbers and truth values as they are, and all else as the text that pysolr makes of it."""
        return value if isinstance(value, (bool, int, str)) else self._from_python(value)

    def _update(self, message, clean_ctrl_chars=True, commit=None, softCommit=False, handler='update', **ignored):
        """Sends an update, whose message is JSON's value."""
        commit = self.always_commit if commit is None else commit
        path = handler + '?versions=true' + ('&commit=true' if commit or softCommit else '')
        return self._send_request('post', path, json.dumps(message), {'Content-Type': 'application/json'})

    def _send_request(self, method, path='', body=None, headers=None, files=None):
        """As pysolr sends it, to the path without the slash at its end."""
        handler, mark, query = path.partition('?')
        return super()._send_request(method, handler.rstrip('/') + mark + query, body, headers, files)
