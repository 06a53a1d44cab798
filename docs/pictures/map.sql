-- A map of Vaduz, drawn by a query over an imported extract:
--   pbfrow import data/liechtenstein-raw.osm.pbf country.db
--   sqlite3 -readonly country.db < docs/pictures/map.sql > docs/pictures/map.svg
-- x is the longitude, shortened by the cosine of 47.15 degrees; y is the latitude from the top; 12,000 units are one degree.
.mode list
SELECT '<svg xmlns="http://www.w3.org/2000/svg" viewBox="0 0 360 480" width="360" height="480" role="img" aria-label="Streets, restaurants, cafés and pubs of Vaduz">
<style>
  .page { fill: #ffffff } .place { fill: #cf222e } text { fill: #59636e }
  path { fill: none; stroke: #8c959f; stroke-linejoin: round; stroke-width: 1 }
  .primary, .secondary { stroke: #9a6700; stroke-width: 3 }
  .footway, .path, .steps, .track, .cycleway { stroke-dasharray: 3 2 }
  .waterway { stroke: #0969da; stroke-width: 3 }
  @media (prefers-color-scheme: dark) {
    .page { fill: #0d1117 } .place { fill: #ff7b72 } text { fill: #9198a1 }
    path { stroke: #6e7681 } .primary, .secondary { stroke: #d29922 } .waterway { stroke: #4493f8 }
  }
</style>
<rect class="page" width="360" height="480" rx="8"/>';
WITH
  line AS (
    SELECT way.off, way.pos, iif(key = 'waterway', key, val) AS class
    FROM tag JOIN element AS way USING (off, pos)
    WHERE way.kind = 1 AND (key = 'highway' OR key = 'waterway' AND val = 'river')
  ),
  point AS (
    SELECT line.off, line.pos, class, (node.lon / 1e9 - 9.49) * 12000 * 0.68 AS x, (47.165 - node.lat / 1e9) * 12000 AS y
    FROM line JOIN link USING (off, pos) JOIN element AS node ON node.kind = 0 AND node.id = link.ref
    ORDER BY line.off, line.pos, link.k
  )
SELECT '<path class="' || class || '" d="M' || group_concat(printf('%.1f %.1f', x, y), ' ') || '"/>'
FROM point GROUP BY off, pos HAVING max(x) > 0 AND min(x) < 360 AND max(y) > 0 AND min(y) < 480;
SELECT printf('<circle class="place" r="4" cx="%.1f" cy="%.1f"><title>', (lon / 1e9 - 9.49) * 12000 * 0.68, (47.165 - lat / 1e9) * 12000)
  || replace(replace(coalesce(name.val, tag.val), '&', '&amp;'), '<', '&lt;') || '</title></circle>'
FROM tag JOIN element USING (off, pos)
LEFT JOIN tag AS name ON name.off = tag.off AND name.pos = tag.pos AND name.key = 'name'
WHERE kind = 0 AND tag.key = 'amenity' AND tag.val IN ('restaurant', 'cafe', 'pub', 'bar')
  AND lat BETWEEN 47.125e9 AND 47.165e9 AND lon BETWEEN 9.49e9 AND 9.534e9;
SELECT '<text x="8" y="470" font-size="9" font-family="sans-serif">© OpenStreetMap contributors</text>
</svg>';
