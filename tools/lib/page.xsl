<?xml version="1.0" encoding="UTF-8"?>
<!--
Makes the HTML page of the command page, by xsltproc, of one document:

    <page>
      the elements that page.sql prints, each list in the order of the page
      <outputs place="1">                the outputs of the bad test case at this place of the last run
        <system-out left="yes">..</system-out>   left, if there was more before this
      </outputs>
    </page>

All that a test case named or printed is a text here, so xsltproc escapes it. An element with `id` has the anchor of its test case, and one with
`href` links to it.
-->
<xsl:stylesheet version="1.0" xmlns:xsl="http://www.w3.org/1999/XSL/Transform">
<xsl:output method="html" encoding="UTF-8" doctype-system="about:legacy-compat"/>

<xsl:key name="outputs" match="outputs" use="@place"/>
<xsl:key name="state" match="night" use="@state"/>
<xsl:key name="kind" match="change" use="@kind"/>
<xsl:key name="reason" match="skipped" use="@reason"/>

<xsl:variable name="runs" select="/page/run"/>
<xsl:variable name="last" select="$runs[last()]"/>
<xsl:variable name="before" select="$runs[position() &lt; last()][@state = 'whole'][last()]"/>

<xsl:template match="/page">
  <html lang="en">
    <head>
      <title>
        <xsl:choose>
          <xsl:when test="contains(fault[1]/@text, 'NO TEST HAS RUN') or contains(fault[1]/@text, 'NO NIGHT HAS BEGUN')">NOT RUN</xsl:when>
          <xsl:when test="$last/@total = 0 and $last/@state = 'whole'">NO TEST CASE</xsl:when>
          <xsl:otherwise>
            <xsl:if test="$last/@state != 'whole'">UNFINISHED: </xsl:if>
            <xsl:if test="$last/@fresh &gt; 0"><xsl:value-of select="concat($last/@fresh, ' new, ')"/></xsl:if>
            <xsl:if test="$last/@gone &gt; 0"><xsl:value-of select="concat($last/@gone, ' gone, ')"/></xsl:if>
            <xsl:value-of select="concat($last/@broken + $last/@failed, ' of ', $last/@total, ' bad')"/>
          </xsl:otherwise>
        </xsl:choose>
        <xsl:value-of select="concat(' - ', about/@project)"/>
      </title>
      <meta name="viewport" content="width=device-width, initial-scale=1"/>
      <style><xsl:call-template name="style"/></style>
    </head>
    <body>
      <h1><xsl:value-of select="about/@project"/></h1>
      <xsl:for-each select="fault"><p class="warning"><xsl:value-of select="@text"/></p></xsl:for-each>
      <xsl:if test="$last">
        <xsl:call-template name="totals"/>
        <xsl:call-template name="bad"/>
        <xsl:call-template name="changes"/>
      </xsl:if>
      <xsl:call-template name="chart"/>
      <xsl:if test="$last">
        <xsl:call-template name="history"/>
        <xsl:call-template name="skipped"/>
        <xsl:call-template name="slowest"/>
      </xsl:if>
      <p class="about">
        <xsl:value-of select="concat('Page made ', about/@made, ' UTC')"/>
        <xsl:if test="$last"><xsl:value-of select="concat(', of run ', $last/@number, ' in ')"/><span class="name"><xsl:value-of select="$last/@file"/></span></xsl:if>
      </p>
    </body>
  </html>
</xsl:template>

<!-- tile: a count of the last run, coloured if it is not 0. -->
<xsl:template name="tile">
  <xsl:param name="count"/>
  <xsl:param name="class" select="''"/>
  <xsl:param name="text"/>
  <li>
    <xsl:if test="$class != '' and $count &gt; 0"><xsl:attribute name="class"><xsl:value-of select="$class"/></xsl:attribute></xsl:if>
    <strong><xsl:value-of select="$count"/></strong>
    <xsl:value-of select="concat(' ', $text)"/>
  </li>
</xsl:template>

<xsl:template name="totals">
  <p>
    <xsl:if test="fault[contains(@text, 'NO TEST HAS RUN') or contains(@text, 'NO NIGHT HAS BEGUN')]">The last run before that: </xsl:if>
    <xsl:value-of select="concat('Started ', $last/@started, ' UTC')"/>
    <xsl:if test="$last/@note != ''">
      <xsl:text>, tested </xsl:text>
      <span class="name"><xsl:value-of select="$last/@note"/></span>
      <xsl:if test="$before and $before/@note != '' and $before/@note != $last/@note">
        <xsl:text> (the run before: </xsl:text>
        <span class="name"><xsl:value-of select="$before/@note"/></span>
        <xsl:text>)</xsl:text>
      </xsl:if>
    </xsl:if>
  </p>
  <ul class="totals">
    <xsl:if test="$before">
      <xsl:call-template name="tile"><xsl:with-param name="count" select="$last/@fresh"/><xsl:with-param name="class" select="'F'"/><xsl:with-param name="text" select="'newly bad'"/></xsl:call-template>
      <xsl:call-template name="tile"><xsl:with-param name="count" select="$last/@gone"/><xsl:with-param name="class" select="'F'"/><xsl:with-param name="text" select="'gone'"/></xsl:call-template>
    </xsl:if>
    <xsl:if test="$last/@selected &gt; $last/@total">
      <xsl:call-template name="tile"><xsl:with-param name="count" select="$last/@selected - $last/@total"/><xsl:with-param name="class" select="'F'"/><xsl:with-param name="text" select="'not recorded'"/></xsl:call-template>
    </xsl:if>
    <xsl:call-template name="tile"><xsl:with-param name="count" select="$last/@failed"/><xsl:with-param name="class" select="'F'"/><xsl:with-param name="text" select="'failed'"/></xsl:call-template>
    <xsl:call-template name="tile"><xsl:with-param name="count" select="$last/@broken"/><xsl:with-param name="class" select="'B'"/><xsl:with-param name="text" select="'broken'"/></xsl:call-template>
    <xsl:call-template name="tile"><xsl:with-param name="count" select="$last/@passed"/><xsl:with-param name="class" select="'p'"/><xsl:with-param name="text" select="'passed'"/></xsl:call-template>
    <xsl:call-template name="tile"><xsl:with-param name="count" select="$last/@skipped"/><xsl:with-param name="class" select="'s'"/><xsl:with-param name="text" select="'skipped'"/></xsl:call-template>
    <xsl:call-template name="tile"><xsl:with-param name="count" select="$last/@expected"/><xsl:with-param name="class" select="'x'"/><xsl:with-param name="text" select="'expected failures'"/></xsl:call-template>
    <xsl:call-template name="tile"><xsl:with-param name="count" select="$last/@total"/><xsl:with-param name="text" select="'total'"/></xsl:call-template>
    <xsl:if test="$last/@wall != ''">
      <li><strong><xsl:value-of select="$last/@wall"/></strong><xsl:value-of select="concat(' wall time (all cases added: ', $last/@sum, ' s)')"/></li>
    </xsl:if>
  </ul>
</xsl:template>

<!-- The bad test cases of the last run, each folded over its outputs. -->
<xsl:template name="bad">
  <h2>Bad test cases</h2>
  <xsl:if test="not(bad)"><p>None.</p></xsl:if>
  <xsl:for-each select="bad">
    <details id="{@id}">
      <summary>
        <b class="{@letter}"><xsl:value-of select="@letter"/></b>
        <xsl:text> </xsl:text>
        <span class="name"><xsl:value-of select="@name"/></span>
        <xsl:text> </xsl:text>
        <xsl:choose>
          <xsl:when test="@fresh = 1"><b class="new">new</b></xsl:when>
          <xsl:when test="count($runs) &gt; 1">
            <span class="since">
              <xsl:value-of select="concat('bad since ', substring(@since, 1, 16), ', ', @streak, ' run')"/>
              <xsl:if test="@streak &gt; 1">s</xsl:if>
              <xsl:if test="@good = ''">, as far as shown here</xsl:if>
            </span>
          </xsl:when>
        </xsl:choose>
        <span class="reason"><xsl:value-of select="@reason"/></span>
        <xsl:if test="@line != ''"><span class="reason line"><xsl:value-of select="@line"/></span></xsl:if>
      </summary>
      <p>
        <xsl:value-of select="concat(@seconds, ' seconds')"/>
        <xsl:if test="@good != ''">
          <xsl:value-of select="concat('; last good ', substring(@good, 1, 16))"/>
          <xsl:if test="@good_note != ''"> in <span class="name"><xsl:value-of select="@good_note"/></span></xsl:if>
          <xsl:text>, bad since </xsl:text>
          <xsl:value-of select="substring(@since, 1, 16)"/>
          <xsl:if test="@note != ''"> in <span class="name"><xsl:value-of select="@note"/></span></xsl:if>
        </xsl:if>
        <xsl:if test="@commits != ''"><xsl:text>: </xsl:text><code><xsl:value-of select="@commits"/></code></xsl:if>
      </p>
      <xsl:apply-templates select="key('outputs', @place)/*"/>
      <xsl:if test="not(key('outputs', @place)/*)"><p>It printed nothing.</p></xsl:if>
    </details>
  </xsl:for-each>
</xsl:template>

<xsl:template match="system-out | system-err">
  <h3>
    <xsl:choose>
      <xsl:when test="self::system-out">Standard output</xsl:when>
      <xsl:otherwise>Standard error</xsl:otherwise>
    </xsl:choose>
    <xsl:if test="@left">
      <xsl:value-of select="', its end: what comes before is left out'"/>
    </xsl:if>
  </h3>
  <!-- A first newline in a pre is dropped by browsers. -->
  <pre><xsl:text>&#10;</xsl:text><xsl:value-of select="."/></pre>
</xsl:template>

<!-- named: the name of a test case, as its anchor or as a link to it. -->
<xsl:template name="named">
  <xsl:choose>
    <xsl:when test="@id"><span class="name" id="{@id}"><xsl:value-of select="@name"/></span></xsl:when>
    <xsl:otherwise><a class="name" href="#{@href}"><xsl:value-of select="@name"/></a></xsl:otherwise>
  </xsl:choose>
</xsl:template>

<!-- What differs from the whole run before, and is not bad. -->
<xsl:template name="changes">
  <h2>Changed</h2>
  <xsl:if test="not(change)"><p>None.</p></xsl:if>
  <xsl:for-each select="change[generate-id() = generate-id(key('kind', @kind)[1])]">
    <details>
      <xsl:if test="@kind = 'Gone' or count(key('kind', @kind)) &lt; 10"><xsl:attribute name="open">open</xsl:attribute></xsl:if>
      <summary>
        <b><xsl:if test="@kind = 'Gone'"><xsl:attribute name="class">F</xsl:attribute></xsl:if><xsl:value-of select="count(key('kind', @kind))"/></b>
        <xsl:value-of select="concat(' ', @kind)"/>
      </summary>
      <ul>
        <xsl:for-each select="key('kind', @kind)">
          <li><xsl:call-template name="named"/><xsl:if test="@text != ''"><xsl:value-of select="concat(': ', @text)"/></xsl:if></li>
        </xsl:for-each>
      </ul>
    </details>
  </xsl:for-each>
</xsl:template>

<!-- A bar for each run or night: how many test cases were bad. -->
<xsl:template name="chart">
  <xsl:if test="count(night) &gt; 1">
    <xsl:variable name="most">
      <xsl:for-each select="night">
        <xsl:sort select="@bad" data-type="number" order="descending"/>
        <xsl:if test="position() = 1"><xsl:value-of select="@bad"/></xsl:if>
      </xsl:for-each>
    </xsl:variable>
    <h2>Bad test cases by night</h2>
    <svg class="chart" viewBox="0 0 {count(night) * 20} 100" role="img" preserveAspectRatio="none">
      <xsl:attribute name="aria-label">
        <xsl:text>Bad test cases, the oldest run first:</xsl:text>
        <xsl:for-each select="night">
          <xsl:choose>
            <xsl:when test="@state = 'none' or @state = 'lost'"> none</xsl:when>
            <xsl:otherwise><xsl:value-of select="concat(' ', @bad)"/></xsl:otherwise>
          </xsl:choose>
        </xsl:for-each>
      </xsl:attribute>
      <xsl:for-each select="night">
        <xsl:variable name="height">
          <xsl:choose>
            <xsl:when test="@state = 'none' or @state = 'lost'">100</xsl:when>
            <xsl:when test="@bad = 0">3</xsl:when>
            <xsl:otherwise><xsl:value-of select="8 + 92 * @bad div $most"/></xsl:otherwise>
          </xsl:choose>
        </xsl:variable>
        <rect class="{@state}{substring('-good', 1 div (@bad = 0 and @state = 'whole'), 5)}" x="{position() * 20 - 18}" y="{100 - $height}" width="16" height="{$height}">
          <title>
            <xsl:value-of select="concat(@day, ': ')"/>
            <xsl:choose>
              <xsl:when test="@state = 'none'">no test has run</xsl:when>
              <xsl:when test="@state = 'lost'">can't be read</xsl:when>
              <xsl:otherwise><xsl:value-of select="concat(@bad, ' bad')"/><xsl:if test="@state = 'unfinished'">, unfinished</xsl:if></xsl:otherwise>
            </xsl:choose>
          </title>
        </rect>
      </xsl:for-each>
    </svg>
    <p class="axis">
      <span><xsl:value-of select="night[1]/@day"/></span>
      <span><xsl:value-of select="concat('most: ', $most)"/></span>
      <span><xsl:value-of select="night[last()]/@day"/></span>
    </p>
    <xsl:for-each select="night[@state != 'whole'][generate-id() = generate-id(key('state', @state)[1])]">
      <p>
        <b class="{@state}">!</b>
        <xsl:choose>
          <xsl:when test="@state = 'none'"> No test has run: </xsl:when>
          <xsl:when test="@state = 'lost'"> Can't be read: </xsl:when>
          <xsl:otherwise> Unfinished: </xsl:otherwise>
        </xsl:choose>
        <xsl:for-each select="key('state', @state)"><xsl:if test="position() &gt; 1">, </xsl:if><xsl:value-of select="@day"/></xsl:for-each>
      </p>
    </xsl:for-each>
  </xsl:if>
</xsl:template>

<!-- A row for each test case that was bad in one of the runs, a column for each run. -->
<xsl:template name="history">
  <h2>
    <xsl:choose>
      <xsl:when test="count($runs) = 1">The last run</xsl:when>
      <xsl:otherwise>The last <xsl:value-of select="count($runs)"/> runs</xsl:otherwise>
    </xsl:choose>
  </h2>
  <xsl:choose>
    <xsl:when test="past">
      <p>Each test case that was bad in one of them: <b class="F">F</b> failed, <b class="B">B</b> broken, <b class="p">.</b> passed,
        <b class="s">s</b> skipped, <b class="x">x</b> expected failure, <b>-</b> not in the run. Above: when it started, and how many were bad.</p>
      <table class="history">
        <thead>
          <tr>
            <th scope="col">Test case</th>
            <xsl:for-each select="$runs">
              <th scope="col"><span><xsl:value-of select="concat(substring(@started, 6, 11), ' ', @broken + @failed)"/></span></th>
            </xsl:for-each>
          </tr>
        </thead>
        <tbody>
          <xsl:for-each select="past">
            <xsl:variable name="strip" select="@strip"/>
            <tr>
              <th scope="row"><xsl:call-template name="named"/></th>
              <xsl:for-each select="$runs">
                <xsl:variable name="letter" select="substring($strip, position(), 1)"/>
                <td class="{translate($letter, '.-', 'pn')}"><xsl:value-of select="$letter"/></td>
              </xsl:for-each>
            </tr>
          </xsl:for-each>
        </tbody>
      </table>
      <xsl:if test="more">
        <p><xsl:value-of select="more/@count"/> more test cases were bad in one of these runs.</p>
      </xsl:if>
    </xsl:when>
    <xsl:otherwise><p>No test case was bad in any of them.</p></xsl:otherwise>
  </xsl:choose>
</xsl:template>

<!-- The skipped test cases of the last run, by reason. -->
<xsl:template name="skipped">
  <h2>Skipped test cases</h2>
  <xsl:if test="not(skipped)"><p>None.</p></xsl:if>
  <xsl:for-each select="skipped[generate-id() = generate-id(key('reason', @reason)[1])]">
    <details>
      <summary>
        <b class="s"><xsl:value-of select="count(key('reason', @reason))"/></b>
        <xsl:text> </xsl:text>
        <xsl:value-of select="@reason"/>
      </summary>
      <ul>
        <xsl:for-each select="key('reason', @reason)"><li><xsl:call-template name="named"/></li></xsl:for-each>
      </ul>
    </details>
  </xsl:for-each>
</xsl:template>

<xsl:template name="slowest">
  <h2>Slowest test cases</h2>
  <xsl:if test="not(slow)"><p>None.</p></xsl:if>
  <xsl:if test="slow">
    <table class="slowest">
      <thead><tr><th scope="col">Seconds</th><th scope="col">Test case</th></tr></thead>
      <tbody>
        <xsl:for-each select="slow">
          <tr><td><xsl:value-of select="@seconds"/></td><th scope="row"><xsl:call-template name="named"/></th></tr>
        </xsl:for-each>
      </tbody>
    </table>
  </xsl:if>
</xsl:template>

<xsl:template name="style">
:root { color-scheme: light dark; --text: #1b1f24; --ground: #fff; --line: #d0d7de; --soft: #f3f5f7; --link: #0a58ca;
  --F: #b3201b; --B: #7a2f9e; --p: #d9f0dd; --p-text: #1d5c2c; --s: #dfe6ee; --s-text: #3c4c5e; --x: #f6e6b8; --x-text: #644a00; }
@media (prefers-color-scheme: dark) {
  :root { --text: #e4e8ec; --ground: #14171a; --line: #3a424b; --soft: #1f2429; --link: #8ab8ff;
    --F: #c93c36; --B: #9550ba; --p: #1f4a2b; --p-text: #b5e3c0; --s: #33404d; --s-text: #c3d0dd; --x: #574413; --x-text: #f3dfa6; }
}
body { font: 16px/1.5 system-ui, sans-serif; color: var(--text); background: var(--ground); max-width: 75rem; margin: 0 auto; padding: 0.5rem 1rem 3rem; }
h1 { font-size: 1.6rem; margin: 0.5rem 0; overflow-wrap: anywhere; }
h2 { font-size: 1.2rem; margin: 2rem 0 0.5rem; border-bottom: 1px solid var(--line); }
h3 { font-size: 0.9rem; margin: 0.5rem 0 0.2rem; }
p { margin: 0.4rem 0; }
a { color: var(--link); text-decoration: none; }
a:hover { text-decoration: underline; }
.name { font-family: ui-monospace, monospace; font-size: 0.9rem; overflow-wrap: anywhere; }
th[scope=row] { font-weight: normal; text-align: left; line-height: 1.3; overflow-wrap: anywhere; }
.warning { background: var(--F); color: #fff; padding: 0.5rem 0.8rem; border-radius: 0.3rem; font-weight: bold; overflow-wrap: anywhere; }
.totals { display: flex; flex-wrap: wrap; gap: 0.5rem; margin: 1rem 0; padding: 0; list-style: none; }
.totals li { background: var(--soft); border-radius: 0.3rem; padding: 0.3rem 0.8rem; font-size: 0.85rem; }
.totals strong { display: block; font-size: 1.4rem; line-height: 1.2; font-variant-numeric: tabular-nums; }
details { border-bottom: 1px solid var(--line); padding: 0.3rem 0; }
:target { outline: 2px solid var(--link); outline-offset: 2px; }
summary { cursor: pointer; overflow-wrap: anywhere; }
.reason { display: block; padding-left: 1.2rem; }
.line { font-family: ui-monospace, monospace; font-size: 0.85rem; opacity: 0.85; }
.since, .about { font-size: 0.85rem; opacity: 0.8; }
pre { background: var(--soft); padding: 0.6rem; margin: 0; overflow: auto; max-height: 70vh; font: 0.85rem/1.4 ui-monospace, monospace; white-space: pre-wrap; overflow-wrap: anywhere; }
ul { margin: 0.3rem 0; }
b { display: inline-block; min-width: 1em; padding: 0 0.25em; text-align: center; border-radius: 0.2em; font-family: ui-monospace, monospace; }
.new { border: 1px solid currentColor; font-size: 0.8rem; }
table { border-collapse: collapse; }
.F, .totals .F { background: var(--F); color: #fff; }
.B, .totals .B { background: var(--B); color: #fff; }
.p, .totals .p { background: var(--p); color: var(--p-text); }
.s, .totals .s { background: var(--s); color: var(--s-text); }
.x, .totals .x { background: var(--x); color: var(--x-text); }
.chart { display: block; width: 100%; height: 5rem; border-bottom: 1px solid var(--line); }
.chart rect { fill: var(--F); }
.chart .whole-good { fill: var(--p-text); }
.chart .unfinished { fill: var(--B); }
.chart .none, .chart .lost { fill: var(--line); }
.none, .lost { background: var(--line); }
.unfinished { background: var(--B); color: #fff; }
.axis { display: flex; justify-content: space-between; font-size: 0.85rem; }
.history td { width: 1.1rem; min-width: 1.1rem; padding: 0; text-align: center; font: 0.85rem/1.5 ui-monospace, monospace; border: 1px solid var(--ground); }
.history thead th { font-size: 0.75rem; font-weight: normal; padding: 0; vertical-align: bottom; text-align: left; }
.history thead span { writing-mode: vertical-rl; transform: rotate(180deg); white-space: nowrap; }
.history th[scope=row] { padding-right: 0.8rem; }
.slowest td, .slowest th { text-align: right; padding: 0 1rem 0 0; font-variant-numeric: tabular-nums; }
.slowest th + th, .slowest td + th { text-align: left; }
@media (max-width: 50rem) {
  body { padding: 0.5rem 2vw 3rem; }
  .history, .history thead, .history tbody { display: block; }
  .history tr { display: flex; flex-wrap: wrap; padding-bottom: 0.3rem; }
  .history th:first-child { flex: 0 0 100%; padding: 0; }
  .history td, .history thead th + th { flex: 0 0 3.2vw; min-width: 0; width: 3.2vw; border: 0; font-size: min(0.85rem, 2.7vw); }
}
</xsl:template>

</xsl:stylesheet>
