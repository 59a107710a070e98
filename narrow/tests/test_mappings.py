"""Small schemas, one for each rule and trap: what the report says, and what becomes of documents.

A document marked `ok` is valid by the original (xmllint says so too), is accepted after the rewriting, and what comes
back from its octets is valid by the original with the same values. `refused` is valid and isn't accepted, which a line
of the report says. `wider` isn't valid and is accepted. `bad` is neither. The second part of a case has the rules of
the report's lines.
"""
from __future__ import annotations

import os
import tempfile
import unittest
from typing import Any, NamedTuple

from random_sets import is_valid
from xmlschema import XMLSchema10
from support import XSI, Set, complex_, element, judge, restricted, root_of, same, schema, simple, xmllint_each
from narrowing.report import RULES, STATUS

LINES = os.path.join(os.path.dirname(os.path.abspath(__file__)), "report.txt")
# xmllint compares fixed values of elements as texts, and looks at no IDREF: cases that show it aren't here.
AB = '<xs:element name="a" type="xs:int" %s/><xs:element name="b" type="xs:int" %s/>'


class Case(NamedTuple):
    """A schema set with documents: `ok`, `refused`, `wider` or `bad`, and the text."""

    name: str
    rules: str
    files: dict[str, str]
    documents: list[str]
    options: dict[str, Any] = {}


def extension(base: str, inner: str) -> str:
    """Returns an extension of a complex type."""
    return '<xs:complexContent><xs:extension base="%s">%s</xs:extension></xs:complexContent>' % (base, inner)


def attributes(names: str, more: str = "") -> str:
    """Returns an attribute of each built-in type, with its name."""
    return "".join('<xs:attribute name="%s" type="xs:%s"%s/>' % (name, name, more) for name in names.split())


DATES = "date dateTime time duration gYear gYearMonth gMonthDay gMonth gDay"
CASES = [
    Case('group and attributeGroup', '', {'s.xsd': schema(
        '<xs:group name="g"><xs:choice>' + AB % ('', '') + '</xs:choice></xs:group>'
        '<xs:attributeGroup name="h"><xs:attribute name="x"/></xs:attributeGroup>'
        + complex_('<xs:group ref="g" maxOccurs="2"/><xs:attributeGroup ref="h"/>'))},
     ['ok <e x=" y "><a>1</a><b>2</b></e>', 'bad <e/>']),
    Case('recursion through a group', '', {'s.xsd': schema(
        '<xs:group name="g"><xs:sequence><xs:element name="a" minOccurs="0"><xs:complexType><xs:group ref="g"/>'
        '</xs:complexType></xs:element></xs:sequence></xs:group>' + complex_('<xs:group ref="g"/>'))},
     ['ok <e><a><a><a/></a></a></e>', 'bad <e><a><b/></a></e>']),
    Case('extension and restriction', 'xsi-type', {'s.xsd': schema(
        '<xs:complexType name="B"><xs:sequence><xs:element name="a" type="xs:int" minOccurs="0"/></xs:sequence>'
        '<xs:attribute name="x" type="xs:int"/><xs:attribute name="y" type="xs:int"/></xs:complexType>'
        '<xs:complexType name="D"><xs:complexContent><xs:extension base="B"><xs:sequence><xs:element name="b" type="xs:int"/>'
        '</xs:sequence></xs:extension></xs:complexContent></xs:complexType>'
        '<xs:complexType name="R"><xs:complexContent><xs:restriction base="B"><xs:sequence><xs:element name="a" type="xs:int"/>'
        '</xs:sequence><xs:attribute name="x" use="prohibited"/></xs:restriction></xs:complexContent></xs:complexType>'
        + complex_('<xs:sequence><xs:element name="b" type="B"/><xs:element name="d" type="D"/><xs:element name="r" type="R"/>'
                   '</xs:sequence>'))},
     ['ok <e><b x="1"/><d y="2"><a>1</a><b>1</b></d><r y="1"><a>1</a></r></e>', 'bad <e><b/><d><b>1</b></d><r x="1"><a>1</a></r></e>',
      'refused <e %s><b xsi:type="R"><a>1</a></b><d><b>1</b></d><r><a>1</a></r></e>' % XSI]),
    Case('substitution group', '', {'s.xsd': schema(
        '<xs:element name="h" type="xs:string" abstract="true"/><xs:element name="i" substitutionGroup="h" type="xs:NMTOKEN"/>'
        '<xs:element name="j" substitutionGroup="i"/>' + complex_('<xs:sequence><xs:element ref="h" maxOccurs="3"/></xs:sequence>'))},
     ['ok <e><i>k</i><j>l</j></e>', 'bad <e><h>k</h></e>']),
    Case('abstract type', 'abstract-type', {'s.xsd': schema(
        '<xs:complexType name="A" abstract="true"/><xs:complexType name="B"><xs:complexContent><xs:extension base="A"/>'
        '</xs:complexContent></xs:complexType>' + complex_('<xs:sequence><xs:element name="a" type="A" minOccurs="0"/></xs:sequence>'))},
     ['ok <e/>', 'refused <e %s><a xsi:type="B"/></e>' % XSI, 'bad <e><a/></e>']),
    Case('a root of an abstract type', 'abstract-type', {'s.xsd': schema(
        '<xs:complexType name="A" abstract="true"/><xs:complexType name="B"><xs:complexContent><xs:extension base="A"/>'
        '</xs:complexContent></xs:complexType><xs:element name="a" type="A"/>' + element('', attributes=' type="B"'))},
     ['ok <e/>', 'refused <a %s xsi:type="B"/>' % XSI, 'bad <a/>']),
    Case('redefine', '', {'s.xsd': schema(
        '<xs:redefine schemaLocation="t.xsd"><xs:simpleType name="T">%s</xs:simpleType></xs:redefine>' %
        '<xs:restriction base="T"><xs:maxInclusive value="9"/></xs:restriction>' + element('', attributes=' type="T"')),
        't.xsd': schema('<xs:simpleType name="T">%s</xs:simpleType>' % restricted('int', minInclusive=1))},
     ['ok <e>7</e>', 'bad <e>0</e>', 'bad <e>10</e>']),
    Case('chameleon include', '', {'s.xsd': schema('<xs:include schemaLocation="t.xsd"/>' + element('', attributes=' type="T"'), 'urn:t'),
        't.xsd': schema('<xs:simpleType name="T">%s</xs:simpleType>' % restricted('int', minInclusive=1))},
     ['ok <e xmlns="urn:t">7</e>', 'bad <e xmlns="urn:t">0</e>', 'bad <e>7</e>']),
    Case('local elements of another namespace', '', {'s.xsd': schema(
        '<xs:import namespace="urn:b" schemaLocation="b.xsd"/><xs:complexType name="D"><xs:complexContent><xs:extension base="b:B">'
        '<xs:sequence><xs:element name="c" type="xs:int"/></xs:sequence></xs:extension></xs:complexContent></xs:complexType>'
        + element('', attributes=' type="D"'), 'urn:a', 'xmlns:b="urn:b"'), 'b.xsd': schema(
        '<xs:complexType name="B"><xs:sequence><xs:element name="a"><xs:simpleType>%s</xs:simpleType></xs:element></xs:sequence>'
        '</xs:complexType>' % restricted('int', minInclusive=1), 'urn:b')},
     ['ok <e xmlns="urn:a"><a xmlns="urn:b">1</a><c>2</c></e>', 'bad <e xmlns="urn:a"><a>1</a><c>2</c></e>']),
    Case('totalDigits', '', {'s.xsd': schema(simple(restricted('integer', totalDigits=2)))}, ['ok <e>-99</e>', 'ok <e>007</e>', 'bad <e>100</e>']),
    Case('fractionDigits 0: a whole number', 'point', {'s.xsd': schema(simple(restricted('decimal', fractionDigits=0, maxExclusive='9.5')))},
     ['ok <e>+9</e>', 'bad <e>10</e>', 'refused <e>5.0</e>']),
    Case('decimal', 'text', {'s.xsd': schema(element('', attributes=' type="xs:decimal"'))}, ['ok <e> 1.50 </e>', 'wider <e>x</e>']),
    Case('decimals: enumeration is by value', 'text text-enumeration', {'s.xsd': schema(simple(restricted('decimal', enumeration=['1.0', '2'])))},
     ['ok <e>1.00</e>', 'wider <e>3</e>']),
    Case('fixed decimal of an attribute', 'attribute-fixed text', {'s.xsd': schema(complex_('<xs:attribute name="v" type="xs:decimal" fixed="1.0"/>'))},
     ['ok <e v="1.00"/>', 'ok <e/>', 'wider <e v="2"/>']),
    Case('default of an attribute', '', {'s.xsd': schema(complex_('<xs:attribute name="v" type="xs:int" default="05"/>'))},
     ['ok <e v="5"/>', 'ok <e/>', 'ok <e v="6"/>', 'bad <e v=""/>']),
    Case('default of an element', '', {'s.xsd': schema(element('', attributes=' type="xs:int" default="5" nillable="true"'))},
     ['ok <e/>', 'ok <e>7</e>', 'ok <e %s xsi:nil="true"/>' % XSI, 'bad <e> </e>']),
    Case('fixed value of an element', '', {'s.xsd': schema(element('', attributes=' type="xs:int" fixed="5"'))},
     ['ok <e/>', 'ok <e>5</e>', 'bad <e>6</e>']),
    Case('fixed value of a boolean element', '', {'s.xsd': schema(element('', attributes=' type="xs:boolean" fixed="1"'))},
     ['ok <e/>', 'ok <e>1</e>', 'bad <e>0</e>']),
    Case('fixed value beside nillable', 'nil-fixed', {'s.xsd': schema(element('', attributes=' type="xs:int" fixed="5" nillable="true"'))},
     ['ok <e/>', 'ok <e %s xsi:nil="false">5</e>' % XSI, 'wider <e %s xsi:nil="true"/>' % XSI]),
    Case('default with simple content', '', {'s.xsd': schema(element('<xs:complexType><xs:simpleContent><xs:extension base="xs:int">'
        '<xs:attribute name="x" type="xs:int"/></xs:extension></xs:simpleContent></xs:complexType>', attributes=' default="5"'))},
     ['ok <e x="1"/>', 'ok <e>7</e>', 'bad <e> </e>']),
    Case('pattern that asks for leading zeros', 'number-spelling', {'s.xsd': schema(simple(restricted('int', pattern=r'\d{3}')))},
     ['ok <e>007</e>', 'bad <e>7</e>', 'wider <e>abc</e>']),
    Case('pattern of few digits', '', {'s.xsd': schema(simple(restricted('int', pattern=r'\d{2}')))}, ['ok <e>07</e>', 'bad <e>7</e>']),
    Case('pattern that takes numbers as they come back', 'number-pattern', {'s.xsd': schema(simple(restricted('unsignedByte', pattern=r'[0-9]{1,3}')))},
     ['ok <e>007</e>', 'ok <e>7</e>', 'wider <e>0007</e>']),
    Case('pattern of a boolean', '', {'s.xsd': schema(simple(restricted('boolean', pattern='0|1')))}, ['ok <e>1</e>', 'bad <e>true</e>']),
    Case('pattern of few words', '', {'s.xsd': schema(simple(restricted('string', pattern='[AB]-?[1-3]')))}, ['ok <e>A-3</e>', 'bad <e>A4</e>']),
    Case('pattern of many words', 'pattern', {'s.xsd': schema(simple(restricted('string', pattern=r'[A-Z]{3}\d*')))},
     ['ok <e>ABC1</e>', 'bad <e>AB</e>', 'wider <e>abcd</e>']),
    Case('pattern beside words', '', {'s.xsd': schema(simple(restricted('token', enumeration=['a', 'b1'], pattern='[a-z]')))},
     ['ok <e> a </e>', 'bad <e>b1</e>']),
    Case('white space of a union', 'union-text', {'s.xsd': schema(simple('<xs:union><xs:simpleType>%s</xs:simpleType><xs:simpleType>%s</xs:simpleType>'
        '</xs:union>' % (restricted('decimal'), restricted('string', minLength=5))))}, ['ok <e>  x  </e>', 'ok <e> 1 </e>', 'wider <e>x</e>']),
    Case('union of number and words', '', {'s.xsd': schema(simple('<xs:union memberTypes="xs:int"><xs:simpleType>%s</xs:simpleType></xs:union>'
        % restricted('NMTOKEN', enumeration=['auto', 'none'])))}, ['ok <e>07</e>', 'ok <e>auto</e>', 'bad <e>x</e>']),
    Case('enumeration of a union', '', {'s.xsd': schema('<xs:simpleType name="U"><xs:union memberTypes="xs:NCName xs:NMTOKEN"/></xs:simpleType>'
        + element('<xs:simpleType><xs:restriction base="U"><xs:enumeration value="a"/><xs:enumeration value="1"/></xs:restriction>'
                  '</xs:simpleType>'))}, ['ok <e>1</e>', 'bad <e>b</e>']),
    Case('enumeration of a union with numbers', 'union-enumeration', {'s.xsd': schema('<xs:simpleType name="U"><xs:union memberTypes="xs:int xs:NCName"/>'
        '</xs:simpleType>' + element('<xs:simpleType><xs:restriction base="U"><xs:enumeration value="1"/></xs:restriction></xs:simpleType>'))},
     ['ok <e>1</e>', 'wider <e>2</e>']),
    Case('pattern of a union whose members treat white space otherwise', 'pattern', {'s.xsd': schema('<xs:simpleType name="U"><xs:union '
        'memberTypes="xs:NMTOKEN xs:string"/></xs:simpleType>' + element('<xs:simpleType><xs:restriction base="U"><xs:pattern '
        'value="[a-z]{3}"/></xs:restriction></xs:simpleType>'))}, ['ok <e>abc</e>', 'wider <e>1</e>']),
    Case('fixed value of a union', '', {'s.xsd': schema('<xs:simpleType name="U"><xs:union memberTypes="xs:int xs:NCName"/></xs:simpleType>'
        + complex_('<xs:attribute name="x" type="U" fixed="1"/>'))}, ['ok <e x="01"/>', 'bad <e x="2"/>']),
    Case('numbers past 128 bits', 'big-number', {'s.xsd': schema(simple(restricted('integer', totalDigits=50)))},
     ['ok <e>7</e>', 'bad <e>x</e>']),     # xmllint reads no longer number.
    Case('list of dates', 'text', {'s.xsd': schema(simple('<xs:list itemType="xs:date"/>'))}, ['ok <e> 2024-02-29  2024-03-01Z </e>', 'wider <e>x</e>']),
    Case('enumeration of a list', '', {'s.xsd': schema(simple('<xs:restriction><xs:simpleType><xs:list itemType="xs:NMTOKEN"/></xs:simpleType>'
        '<xs:enumeration value="a  b"/></xs:restriction>'))}, ['ok <e> a b </e>', 'bad <e>a</e>']),
    Case('hexBinary of four octets', 'text', {'s.xsd': schema(simple(restricted('hexBinary', length=4)))},
     ['ok <e>00ffAA11</e>', 'bad <e>00</e>', 'wider <e>xxxxxxxx</e>']),
    Case('ID and IDREFS', 'id', {'s.xsd': schema(complex_('<xs:attribute name="i" type="xs:ID"/><xs:attribute name="r" type="xs:IDREFS"/>'))},
     ['ok <e i="a" r="a a"/>', 'bad <e i="1"/>']),
    Case('key', 'key', {'s.xsd': schema(element('<xs:complexType><xs:sequence><xs:element name="a" type="xs:int" maxOccurs="9"/></xs:sequence>'
        '</xs:complexType><xs:unique name="k"><xs:selector xpath="a"/><xs:field xpath="."/></xs:unique>'))},
     ['ok <e><a>1</a><a>2</a></e>', 'wider <e><a>1</a><a>1</a></e>']),
    Case('QName', 'qname qname-prefix', {'s.xsd': schema(element('', attributes=' type="xs:QName"'))},
     ['ok <e>a</e>', 'refused <e xmlns:p="urn:p">p:a</e>', 'bad <e>1</e>']),
    Case('wildcard of the set', '', {'s.xsd': schema('<xs:import namespace="urn:b" schemaLocation="b.xsd"/>'
        + complex_('<xs:sequence><xs:any namespace="##other" maxOccurs="2"/></xs:sequence>'), 'urn:a'),
        'b.xsd': schema('<xs:element name="b" type="xs:int"/>', 'urn:b')},
     ['ok <e xmlns="urn:a"><b xmlns="urn:b">1</b></e>', 'bad <e xmlns="urn:a"><b xmlns="urn:b">x</b></e>']),
    Case('lax wildcard', 'any any-attribute id', {'s.xsd': schema(complex_('<xs:sequence><xs:any namespace="##other" processContents="lax" minOccurs="0"/>'
        '</xs:sequence><xs:anyAttribute namespace="##other" processContents="skip"/>'), 'urn:a')},
     ['ok <e xmlns="urn:a"/>', 'refused <e xmlns="urn:a"><b xmlns="urn:b"/></e>', 'refused <e xmlns="urn:a" xmlns:p="urn:p" p:q="1"/>',
      'bad <e xmlns="urn:a"><e/></e>']),
    Case('element without a type', 'any any-attribute id', {'s.xsd': schema('<xs:element name="e"/>')}, ['ok <e> x </e>', 'refused <e a=""/>']),
    Case('attribute without a type', '', {'s.xsd': schema(complex_('<xs:attribute name="x"/>'))}, ['ok <e x=" a&#10;b "/>', 'bad <e y=""/>']),
    Case('star normal form', '', {'s.xsd': schema(complex_('<xs:sequence minOccurs="0" maxOccurs="unbounded">' + AB % (('minOccurs="0"',) * 2)
        + '</xs:sequence>'))}, ['ok <e><b>1</b><a>1</a><a>2</a></e>', 'ok <e/>', 'bad <e><c/></e>']),
    Case('choice of two that may be absent', '', {'s.xsd': schema(complex_('<xs:choice>' + AB % ('minOccurs="0" maxOccurs="2"', 'minOccurs="0"')
        + '</xs:choice>'))}, ['ok <e><a>1</a><a>2</a></e>', 'ok <e/>', 'bad <e><a>1</a><b>1</b></e>']),
    Case('(a?, b?){0,3}', 'not-clear', {'s.xsd': schema(complex_('<xs:sequence minOccurs="0" maxOccurs="3">' + AB % (('minOccurs="0"',) * 2)
        + '</xs:sequence>'))}, ['ok <e><b>1</b><a>1</a><a>2</a></e>', 'wider <e><a>1</a><a>2</a><a>3</a><a>4</a></e>']),
    Case('all that may be absent', 'optional-all', {'s.xsd': schema(complex_('<xs:all minOccurs="0">' + AB % ('', '') + '</xs:all>'))},
     ['ok <e/>', 'ok <e><b>1</b><a>2</a></e>', 'wider <e><a>1</a></e>']),
    Case('mixed', '', {'s.xsd': schema(element('<xs:complexType mixed="true"><xs:sequence minOccurs="0">' + AB % ('', '') +
        '</xs:sequence></xs:complexType>'))}, ['ok <e>x<a>1</a> y<b>2</b></e>', 'ok <e> x </e>', 'bad <e>x<a>1</a></e>']),
    Case('restriction of simple content', '', {'s.xsd': schema(
        '<xs:complexType name="B"><xs:simpleContent><xs:extension base="xs:string"><xs:attribute name="x" type="xs:int"/></xs:extension>'
        '</xs:simpleContent></xs:complexType>' + complex_('<xs:simpleContent><xs:restriction base="B"><xs:maxLength value="3"/>'
        '<xs:attribute name="x" type="xs:int" use="required"/></xs:restriction></xs:simpleContent>'))},
     ['ok <e x="1">abc</e>', 'bad <e x="1">abcd</e>', 'bad <e>abc</e>']),
    Case('one name twice, typed in place', '', {'s.xsd': schema('<xs:group name="g"><xs:sequence><xs:element name="a"><xs:simpleType>%s'
        '</xs:simpleType></xs:element></xs:sequence></xs:group>' % restricted('int', maxInclusive=9) +
        complex_('<xs:sequence><xs:group ref="g"/><xs:element name="b"/><xs:group ref="g"/></xs:sequence>').replace(
            'name="b"', 'name="b" type="xs:int"'))}, ['ok <e><a>1</a><b>1</b><a>2</a></e>', 'bad <e><a>1</a><b>1</b><a>10</a></e>']),
    Case('pattern of a boolean that takes true and false', 'boolean-pattern', {'s.xsd': schema(simple(restricted('boolean', pattern='true|false')))},
     ['ok <e>true</e>', 'wider <e>1</e>']),
    Case('fixed decimal of an element', 'element-fixed text', {'s.xsd': schema(element('', attributes=' type="xs:decimal" fixed="1.0"'))},
     ['ok <e>1.0</e>', 'ok <e/>', 'wider <e>2</e>']),
    Case('enumeration of a list of numbers', 'list-enumeration', {'s.xsd': schema(simple('<xs:restriction><xs:simpleType><xs:list itemType="xs:int"/>'
        '</xs:simpleType><xs:enumeration value="1 2"/></xs:restriction>'))}, ['ok <e>1 2</e>', 'wider <e>3</e>']),
    Case('over 400 attributes', 'many-attributes', {'s.xsd': schema(complex_(''.join('<xs:attribute name="a%d" type="xs:int"/>' % i for i in range(401))))},
     ['ok <e a0="1" a399="2"/>', 'refused <e a400="1"/>', 'bad <e a="1"/>']),
    Case('over 10,000 words', 'many-words', {'s.xsd': schema(simple(restricted('token', enumeration=['w%d' % i for i in range(10001)])))},
     ['ok <e>w0</e>', 'refused <e>w10000</e>', 'bad <e>v</e>']),
    Case('an element that can\'t be valid', 'abstract-type no-content', {'s.xsd': schema(
        '<xs:complexType name="A" abstract="true"/><xs:element name="a" type="A"/>' + element('<xs:complexType><xs:sequence><xs:element ref="a"/>'
        '</xs:sequence></xs:complexType>') + '<xs:element name="f" type="xs:int"/>')}, ['ok <f>1</f>', 'bad <e/>']),
    Case('a circle that can\'t be valid', 'no-content', {'s.xsd': schema(
        '<xs:element name="a"><xs:complexType><xs:choice/></xs:complexType></xs:element>'
        + element('<xs:complexType><xs:sequence><xs:element ref="a"/></xs:sequence></xs:complexType>') + '<xs:element name="f" type="xs:int"/>')},
     ['ok <f>1</f>', 'bad <e><a/></e>']),
    Case('numbers between 0.2 and 0.8', 'no-value point', {'s.xsd': schema(simple(restricted('decimal', fractionDigits=0, minInclusive='0.2', maxInclusive='0.8')))},
     ['wider <e>7</e>']),
    Case('2^32 occurrences', 'occurrences', {'s.xsd': schema(complex_('<xs:sequence><xs:element name="a" type="xs:int" minOccurs="0" '
        'maxOccurs="99999999999"/></xs:sequence>'))}, []),
    Case('substitution group in an all', 'substituted-all', {'s.xsd': schema(
        '<xs:element name="h" type="xs:int" abstract="true"/><xs:element name="i" substitutionGroup="h"/><xs:element name="j" substitutionGroup="h"/>'
        + complex_('<xs:all><xs:element ref="h"/><xs:element name="k" type="xs:int"/></xs:all>'))},
     ['ok <e><k>1</k><j>2</j></e>', 'bad <e><i>1</i></e>', 'wider <e><i>1</i><k>1</k><j>2</j></e>']),
    Case('bounds of a decimal', 'text text-facet', {'s.xsd': schema(simple(restricted('decimal', minInclusive='0', totalDigits=3)))},
     ['ok <e>1.5</e>', 'wider <e>-1</e>']),
    Case('two local elements of another namespace', 'two-declarations', {'s.xsd': schema(
        '<xs:import namespace="urn:b" schemaLocation="b.xsd"/>' + ''.join('<xs:complexType name="%s"><xs:complexContent><xs:extension base="b:%s">'
        '<xs:sequence><xs:element name="c" type="xs:int"/></xs:sequence></xs:extension></xs:complexContent></xs:complexType>' % it for it in (('D', 'B'), ('E', 'C')))
        + element('', attributes=' type="D"') + element('', 'f', ' type="E"'), 'urn:a', 'xmlns:b="urn:b"'), 'b.xsd': schema(''.join(
        '<xs:complexType name="%s"><xs:sequence><xs:element name="a" type="xs:%s"/></xs:sequence></xs:complexType>' % it
        for it in (('B', 'int'), ('C', 'string'))), 'urn:b')},
     ['ok <e xmlns="urn:a"><a xmlns="urn:b">1</a><c>2</c></e>', 'refused <f xmlns="urn:a"><a xmlns="urn:b">x</a><c>2</c></f>',
      'bad <e xmlns="urn:a"><c>2</c></e>']),
    Case('entities of a document type', '', {'s.xsd': '<!DOCTYPE xs:schema [<!ENTITY x "xs:"><!ENTITY t "&x;int">]>'
        + schema(element('', attributes=' type="&t;"'))}, ['ok <e>7</e>', 'bad <e>x</e>']),
    Case('floats, durations, binary', 'text', {'s.xsd': schema(complex_(''.join('<xs:attribute name="%s" type="xs:%s"/>' % (it[0:2], it) for it in (
        'double', 'float', 'base64Binary', 'hexBinary', 'gYear', 'time')) + '<xs:attribute name="du" type="xs:duration"/>'))},
     ['ok <e do="1.5E3" fl="INF" ba=" AA== " he="0aF0" gY="2024" ti="09:00:00Z" du="P1DT2H"/>', 'wider <e do="x"/>']),
    Case('recursion of an extension', 'xsi-type', {'s.xsd': schema(
        '<xs:complexType name="T"><xs:sequence><xs:element name="t" type="T" minOccurs="0"/></xs:sequence></xs:complexType>'
        '<xs:complexType name="U"><xs:complexContent><xs:extension base="T"><xs:attribute name="x" type="xs:int" use="required"/></xs:extension>'
        '</xs:complexContent></xs:complexType>' + element('', attributes=' type="U"'))},
     ['ok <e x="1"><t><t/></t></e>', 'bad <e><t/></e>', 'refused <e x="1" %s><t xsi:type="U" x="2"/></e>' % XSI]),
    Case('an attribute group with a wildcard, and attributes that a restriction changes', 'xsi-type', {'s.xsd': schema(
        '<xs:import namespace="urn:b" schemaLocation="b.xsd"/><xs:attributeGroup name="h"><xs:attribute name="x" type="xs:int"/>'
        '<xs:anyAttribute namespace="urn:b"/></xs:attributeGroup><xs:complexType name="B"><xs:attribute name="y" type="xs:int"/>'
        '<xs:attributeGroup ref="h"/></xs:complexType><xs:complexType name="R"><xs:complexContent><xs:restriction base="B">'
        '<xs:attribute name="x" type="xs:int" use="required"/><xs:attribute name="y" use="prohibited"/></xs:restriction></xs:complexContent>'
        '</xs:complexType>' + element('', attributes=' type="B"') + element('', 'f', ' type="R"'), 'urn:a'),
        'b.xsd': schema('<xs:attribute name="z" type="xs:int"/>', 'urn:b')},
     ['ok <e xmlns="urn:a" xmlns:b="urn:b" x="1" y="2" b:z="3"/>', 'ok <f xmlns="urn:a" x="1"/>', 'bad <f xmlns="urn:a" y="1" x="1"/>',
      'bad <f xmlns="urn:a"/>', 'bad <f xmlns="urn:a" xmlns:b="urn:b" x="1" b:z="3"/>', 'bad <e xmlns="urn:a" xmlns:b="urn:b" b:z="a"/>']),
    Case('redefine of groups and of a complex type', 'xsi-type', {'s.xsd': schema(
        '<xs:redefine schemaLocation="t.xsd"><xs:group name="g"><xs:sequence><xs:group ref="g"/><xs:element name="b" type="xs:int"/></xs:sequence>'
        '</xs:group><xs:attributeGroup name="h"><xs:attributeGroup ref="h"/><xs:attribute name="y"/></xs:attributeGroup>'
        '<xs:complexType name="T">%s</xs:complexType></xs:redefine>' % extension('T', '<xs:group ref="g"/><xs:attributeGroup ref="h"/>')
        + element('', attributes=' type="T"')), 't.xsd': schema(
        '<xs:group name="g"><xs:sequence><xs:element name="a" type="xs:int"/></xs:sequence></xs:group><xs:attributeGroup name="h">'
        '<xs:attribute name="x"/></xs:attributeGroup><xs:complexType name="T"><xs:sequence><xs:element name="t" type="xs:int"/></xs:sequence>'
        '</xs:complexType>')},
     ['ok <e x="1" y="2"><t>1</t><a>2</a><b>3</b></e>', 'bad <e><t>1</t></e>', 'bad <e><t>1</t><a>2</a></e>', 'bad <e z="1"><t>1</t><a>2</a><b>3</b></e>']),
    Case('wildcards dropped', 'any any-attribute', {'s.xsd': schema('<xs:import namespace="urn:b" schemaLocation="b.xsd"/>' + complex_(
        '<xs:sequence><xs:element name="c" type="xs:int"/><xs:any namespace="urn:b ##local" minOccurs="0"/></xs:sequence><xs:anyAttribute '
        'namespace="##other"/>'), 'urn:a'), 'b.xsd': schema('<xs:element name="b" type="xs:int"/><xs:attribute name="z"/>', 'urn:b')},
     ['ok <e xmlns="urn:a"><c>1</c></e>', 'refused <e xmlns="urn:a"><c>1</c><b xmlns="urn:b">1</b></e>', 'bad <e xmlns="urn:a"/>',
      'refused <e xmlns="urn:a" xmlns:b="urn:b" b:z=""><c>1</c></e>'], {'wildcards': 'drop'}),
    Case('a wildcard that is required, dropped', 'no-content', {'s.xsd': schema(complex_('<xs:sequence><xs:any/></xs:sequence>')
        + element('', 'f', ' type="xs:int"'))}, ['ok <f>1</f>', 'refused <e><f>1</f></e>', 'bad <e/>'], {'wildcards': 'drop'}),
    Case('a wildcard in a choice', '', {'s.xsd': schema('<xs:import namespace="urn:b" schemaLocation="b.xsd"/>' + complex_(
        '<xs:choice maxOccurs="unbounded"><xs:element name="a" type="xs:int"/><xs:any namespace="urn:b"/></xs:choice>'), 'urn:a'),
        'b.xsd': schema(element('', 'f', ' type="xs:int"') + element('', 'g', ' type="xs:int"'), 'urn:b')},
     ['ok <e xmlns="urn:a" xmlns:b="urn:b"><b:g>1</b:g><a>1</a><b:f>1</b:f></e>', 'bad <e xmlns="urn:a"/>', 'bad <e xmlns="urn:a"><f xmlns="urn:b">x</f></e>']),
    Case('an extension of anyType', 'any any-attribute id', {'s.xsd': schema(element('<xs:complexType>%s</xs:complexType>' % extension(
        'xs:anyType', '<xs:attribute name="x" type="xs:int"/>')))}, ['ok <e x="1"> y </e>', 'refused <e><f/></e>', 'bad <e x="y"/>']),
    Case('an extension of mixed content by an attribute', '', {'s.xsd': schema('<xs:complexType name="B" mixed="true"><xs:sequence>'
        '<xs:element name="a" type="xs:int" minOccurs="0"/></xs:sequence></xs:complexType>' + element('<xs:complexType>%s</xs:complexType>' %
        extension('B', '<xs:attribute name="x" type="xs:int"/>')))}, ['ok <e x="1"> y <a>1</a></e>', 'bad <e><b/></e>']),
    Case('dates and times', 'text', {'s.xsd': schema(complex_(attributes(DATES)))},
     ['ok <e date="2024-02-29Z" dateTime="2024-12-31T23:59:59.50+01:00" time="09:00:00Z" duration="-P1DT0.5S" gYear="2024" gYearMonth="2024-02" '
      'gMonthDay="--02-29" gMonth="--12" gDay="---31"/>', 'wider <e date="2023-02-29"/>', 'wider <e gDay="31"/>', 'bad <e day=""/>']),
    Case('bounds of dates', 'text text-facet', {'s.xsd': schema(simple(restricted('date', minInclusive='2024-01-01', maxExclusive='2025-01-01')))},
     ['ok <e>2024-12-31</e>', 'wider <e>2025-01-01</e>']),
    Case('durations of equal length are one value', 'text text-enumeration', {'s.xsd': schema(simple(restricted('duration', enumeration='PT60M')))},
     ['ok <e>PT1H</e>', 'wider <e>PT2H</e>']),
    Case('digits of a decimal', 'text text-facet', {'s.xsd': schema(simple(restricted('decimal', totalDigits=4, fractionDigits=2)))},
     ['ok <e>10.50</e>', 'wider <e>10.505</e>', 'wider <e>100.5.0</e>']),
    Case('totalDigits before fractionDigits 0', 'point', {'s.xsd': schema(simple(restricted('decimal', totalDigits=3, fractionDigits=0)))},
     ['ok <e>-999</e>', 'bad <e>1000</e>', 'refused <e>9.0</e>']),
    Case('NOTATION', 'qname qname-prefix text-enumeration', {'s.xsd': schema('<xs:notation name="n" public="n"/>' + simple(restricted('NOTATION', enumeration='n')))},
     ['ok <e>n</e>', 'bad <e>1</e>', 'wider <e>m</e>']),
    Case('IDREF and ENTITY', 'id', {'s.xsd': schema(complex_(attributes("ID IDREF ENTITY ENTITIES")))},
     ['ok <e ID="a" IDREF="a"/>', 'bad <e IDREF="a b"/>', 'wider <e ENTITY="a"/>']),
    Case('key and keyref', 'key', {'s.xsd': schema(element('<xs:complexType><xs:sequence><xs:element name="a" maxOccurs="9"><xs:complexType>'
        '<xs:attribute name="k" type="xs:int"/><xs:attribute name="r" type="xs:int"/></xs:complexType></xs:element></xs:sequence></xs:complexType>'
        '<xs:key name="k"><xs:selector xpath="a"/><xs:field xpath="@k"/></xs:key><xs:keyref name="r" refer="k"><xs:selector xpath="a"/>'
        '<xs:field xpath="@r"/></xs:keyref>'))},
     ['ok <e><a k="1"/><a k="2" r="01"/></e>', 'wider <e><a k="1"/><a k="1"/></e>', 'wider <e><a k="1" r="2"/></e>', 'wider <e><a/></e>', 'bad <e/>']),
    Case('a union where a number would come back as a name', 'union-text', {'s.xsd': schema(simple('<xs:union memberTypes="xs:NMTOKEN xs:int"/>'))},
     ['ok <e>+7</e>', 'ok <e>7</e>', 'ok <e> x </e>', 'wider <e>%</e>']),
    Case('a union where a number would come back as a truth value', 'union-text', {'s.xsd': schema(simple('<xs:union memberTypes="xs:boolean xs:int"/>'))},
     ['ok <e>01</e>', 'ok <e>1</e>', 'wider <e>x</e>']),
    Case('a union of words and numbers that they have', 'union-text', {'s.xsd': schema(simple('<xs:union><xs:simpleType>%s</xs:simpleType>'
        '<xs:simpleType>%s</xs:simpleType></xs:union>' % (restricted('token', enumeration=['7', 'x']), restricted('int'))))},
     ['ok <e>07</e>', 'ok <e>x</e>', 'wider <e>y</e>']),
    Case('a union of too many members', 'union-text', {'s.xsd': schema(simple('<xs:union memberTypes="%s"/>' % ('xs:int ' * 1100)))},
     ['ok <e>7</e>', 'wider <e>x</e>']),
    Case('a union of too many words', 'union-text', {'s.xsd': schema('<xs:simpleType name="W">%s</xs:simpleType>' % restricted('token',
        enumeration=['w%d' % i for i in range(6000)]) + simple('<xs:union memberTypes="W W"/>'))}, ['ok <e>w7</e>', 'wider <e>x</e>']),
    Case('a union of spaced words and a list', 'union-text', {'s.xsd': schema(simple('<xs:union><xs:simpleType>%s</xs:simpleType><xs:simpleType>'
        '<xs:list itemType="xs:NCName"/></xs:simpleType></xs:union>' % restricted('string', enumeration='a b')))},
     ['ok <e>a b</e>', 'ok <e>a  b</e>', 'wider <e>1</e>']),
    Case('default and fixed value of elements of each kind', 'element-fixed text', {'s.xsd': schema(complex_('<xs:sequence>'
        '<xs:element name="a" type="xs:date" default="2024-02-29" minOccurs="0"/><xs:element name="b" type="xs:NMTOKENS" fixed="a b" minOccurs="0"/>'
        '<xs:element name="c" type="xs:token" fixed="c" minOccurs="0"/></xs:sequence>'))},
     ['ok <e><a/><b/><c/></e>', 'ok <e><a>2024-03-01</a><b>a b</b><c>c</c></e>', 'bad <e><c>d</c></e>', 'wider <e><a>x</a></e>', 'wider <e><b>b</b></e>']),
    Case('a default value of mixed content', '', {'s.xsd': schema(element('<xs:complexType mixed="true"><xs:sequence><xs:element name="a" '
        'type="xs:int" minOccurs="0"/></xs:sequence></xs:complexType>', attributes=' default="x"'))},
     ['ok <e>y</e>', 'ok <e><a>1</a></e>', 'bad <e><b/></e>']),
    Case('a choice before an element that may be absent', '', {'s.xsd': schema(complex_('<xs:sequence><xs:choice><xs:sequence>'
        '<xs:element name="a" type="xs:int" maxOccurs="2"/></xs:sequence><xs:element name="b" type="xs:int"/></xs:choice><xs:element name="c" '
        'type="xs:int" minOccurs="0"/></xs:sequence>'))}, ['ok <e><a>1</a><a>2</a><c>3</c></e>', 'ok <e><b>1</b></e>', 'bad <e><c>1</c></e>']),
    Case('only what a root needs', 'id', {'s.xsd': schema(element('', 'f', ' type="xs:decimal"') + '<xs:attributeGroup name="h"><xs:attribute name="i" '
        'type="xs:ID"/></xs:attributeGroup>' + complex_('<xs:attributeGroup ref="h"/>'))},
     ['ok <e i="a"/>', 'bad <e i="1"/>', 'refused <f>1</f>'], {'roots': ['e']}),
    Case('a root that needs a group of another component', 'text', {'s.xsd': schema(
        '<xs:group name="g"><xs:sequence><xs:element name="a"><xs:complexType><xs:sequence><xs:element name="d" type="xs:date"/></xs:sequence>'
        '</xs:complexType></xs:element></xs:sequence></xs:group><xs:element name="b"><xs:complexType><xs:group ref="g"/></xs:complexType></xs:element>'
        + complex_('<xs:group ref="g"/>'))}, ['ok <e><a><d>2024-02-29</d></a></e>', 'bad <e/>', 'wider <e><a><d>x</d></a></e>'], {'roots': ['e']}),
    Case('four or six of an element', '', {'s.xsd': schema(complex_('<xs:sequence minOccurs="2" maxOccurs="3"><xs:element name="a" type="xs:int" '
        'minOccurs="2" maxOccurs="2"/></xs:sequence>'))},
     ['ok <e>%s</e>' % ('<a>1</a>' * 6), 'ok <e>%s</e>' % ('<a>1</a>' * 4), 'bad <e>%s</e>' % ('<a>1</a>' * 5), 'bad <e><a>1</a><a>2</a></e>']),
    Case('a union of one text with lengths', 'pattern', {'s.xsd': schema('<xs:simpleType name="S">%s</xs:simpleType>'
        '<xs:simpleType name="U"><xs:union memberTypes="S"/></xs:simpleType>' % restricted('token', pattern='[a-z]{2,3}')
        + simple('<xs:restriction base="U"><xs:pattern value="[a-z]{1,4}"/></xs:restriction>'))},
     ['ok <e>abc</e>', 'bad <e>a</e>', 'bad <e>abcd</e>', 'wider <e>A1</e>']),
    Case('a decimal with a pattern that becomes whole numbers', 'number-spelling pattern point text', {'s.xsd': schema(
        '<xs:simpleType name="D">%s</xs:simpleType><xs:simpleType name="I"><xs:restriction base="D"><xs:totalDigits value="2"/>'
        '<xs:fractionDigits value="0"/></xs:restriction></xs:simpleType>' % restricted('decimal', pattern='[0-9]{3,4}')
        + simple('<xs:restriction base="I"><xs:pattern value="[0-9]{1,5}"/></xs:restriction>'))},
     ['ok <e>007</e>', 'bad <e>7</e>', 'bad <e>00007</e>', 'wider <e>777</e>']),
    Case('bounds over an enumeration', 'number-pattern', {'s.xsd': schema('<xs:simpleType name="N">%s</xs:simpleType>'
        '<xs:simpleType name="P">%s</xs:simpleType>' % (restricted('int', enumeration=[1, 5, 9]), restricted('integer', pattern='[01]'))
        + complex_('<xs:sequence><xs:element name="n"><xs:simpleType><xs:restriction base="N"><xs:maxInclusive value="5"/></xs:restriction>'
        '</xs:simpleType></xs:element><xs:element name="p"><xs:simpleType><xs:restriction base="P"><xs:totalDigits value="2"/>'
        '</xs:restriction></xs:simpleType></xs:element></xs:sequence>'))},
     ['ok <e><n>5</n><p>1</p></e>', 'bad <e><n>9</n><p>1</p></e>', 'bad <e><n>3</n><p>1</p></e>', 'bad <e><n>1</n><p>2</p></e>']),
    Case('blocked substitution', '', {'s.xsd': schema('<xs:element name="h" type="xs:string" block="substitution"/><xs:element name="i" '
        'substitutionGroup="h"/>' + complex_('<xs:sequence><xs:element ref="h"/></xs:sequence>'))}, ['ok <e><h>k</h></e>', 'bad <e><i>k</i></e>']),
]


class Mappings(unittest.TestCase):
    """Each case."""

    def test_cases(self) -> None:
        """Tries the report, the schemas and the documents of each case."""
        for case in CASES:
            with self.subTest(case.name), tempfile.TemporaryDirectory() as folder:
                rewritten = Set(folder, case.files, **case.options)
                self.assertEqual(" ".join(rewritten.rules()), case.rules)
                status = max((STATUS[RULES[r][0]] for r in case.rules.split()), default=0)
                self.assertEqual(rewritten.outcome.status, status)
                self.assertEqual(rewritten.accepted(), "")
                XMLSchema10(rewritten.files[0])  # This raises an exception where the schema breaks a rule.
                self.try_documents(case, rewritten)

    def test_lines(self) -> None:
        """Compares the lines of the report of each case with narrow/tests/report.txt, which UPDATE in the environment writes again."""
        found = []
        for case in CASES:
            with tempfile.TemporaryDirectory() as folder:
                lines = [it.replace(folder + "/", "") for it in Set(folder, case.files, **case.options).outcome.lines]
                found.append("\n".join([case.name, *("    " + it for it in lines), ""]))
        if os.environ.get("UPDATE"):
            with open(LINES, "w", encoding="utf-8") as file:
                file.write("\n".join(found))
        with open(LINES, encoding="utf-8") as file:
            self.assertEqual(file.read().split("\n\n"), "\n".join(found).split("\n\n"))

    def try_documents(self, case: Case, rewritten: Set) -> None:
        """Tries the documents of a case."""
        original = judge(rewritten.original)
        pairs = [(said, document.encode()) for said, document in (it.split(" ", 1) for it in case.documents)]
        by_xmllint = xmllint_each(rewritten.original, [document for _, document in pairs])
        for (said, document), is_valid in zip(pairs, by_xmllint):
            self.assertEqual(is_valid, said in ("ok", "refused"), document)
            back = rewritten.round_trips(root_of(document), [document])[0]
            self.assertEqual(isinstance(back, bytes), said in ("ok", "wider"), (document, back))
            if said == "ok" and isinstance(back, bytes):
                self.assertEqual(xmllint_each(rewritten.original, [back]), [True], (document, back))
                self.assertTrue(same(original, document, back), (document, back))

    def test_root_that_is_not_declared(self) -> None:
        """Tries that the random tests don't call a document valid whose root isn't declared, and that names a type of the schema."""
        original = XMLSchema10(schema('<xs:complexType name="B"/>' + element('', attributes=' type="B"')))
        said = [is_valid(original, ('<%s %s xsi:type="B"/>' % (name, XSI)).encode()) for name in "ea"]
        self.assertEqual(said, [True, False])

    def test_each_rule_has_a_case(self) -> None:
        """Tries that no rule is without a case here or in another test."""
        tried = {rule for case in CASES for rule in case.rules.split()} | ELSEWHERE
        self.assertEqual(sorted(set(RULES) - tried), [])

    def test_each_mapping_has_valid_and_invalid_documents(self) -> None:
        """Tries that each case has a document that is valid and one that isn't, except where nothing is invalid."""
        for case in CASES:
            said = {it.split(" ", 1)[0] for it in case.documents}
            self.assertTrue(said & {"ok", "refused"} or case.name in WITHOUT_VALID, case.name)
            self.assertTrue(said & {"bad", "wider"} or case.name in WITHOUT_INVALID, case.name)


# Cases where no document is valid, and where each is that has the right root. xmllint knows no number of 2^32 occurrences.
WITHOUT_VALID = {"numbers between 0.2 and 0.8", "2^32 occurrences"}
WITHOUT_INVALID = {"element without a type", "2^32 occurrences"}
# Rules that other tests have.
ELSEWHERE = {"not-valid", "two-types"}

if __name__ == "__main__":
    unittest.main()
