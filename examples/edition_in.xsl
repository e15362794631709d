<!-- Puts the edition of the file that the parameter `edition` names, from to-xml, into a TEI file: its
     content takes the place of the old one, and the div keeps its attributes. -->
<xsl:stylesheet version="1.0" xmlns:xsl="http://www.w3.org/1999/XSL/Transform"
  xmlns:tei="http://www.tei-c.org/ns/1.0">
  <xsl:param name="edition"/>
  <xsl:output encoding="UTF-8"/>
  <xsl:template match="@* | node()">
    <xsl:copy>
      <xsl:apply-templates select="@* | node()"/>
    </xsl:copy>
  </xsl:template>
  <xsl:template match="tei:div[@type = 'edition']">
    <xsl:copy>
      <xsl:copy-of select="@*"/>
      <xsl:apply-templates select="document($edition)/div/node()" mode="tei"/>
    </xsl:copy>
  </xsl:template>
  <xsl:template match="*" mode="tei">
    <xsl:element name="{name()}" namespace="http://www.tei-c.org/ns/1.0">
      <xsl:copy-of select="@*"/>
      <xsl:apply-templates mode="tei"/>
    </xsl:element>
  </xsl:template>
</xsl:stylesheet>
